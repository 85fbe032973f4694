/* Makes the calls that README.md draws, by likes.h and likes_service.h, and prints what each answers. */
#include "../opening.h"

#include <inttypes.h>
#include <stdio.h>

enum { SERVICES = 300, CALLS = 400, SHARED = 100, SHARED_CALLS = 100, FEW = 16 };

/* A service with its seats. */
typedef struct {
    likes_options options;
    uint32_t pages;
    likes_driver driver;
    likes_phase phase;
    likes_seat seats[FEW];
} service;

static uint64_t state = 1;

static uint64_t next(void) {
    return state = state * UINT64_C(6364136223846793005) + UINT64_C(1442695040888963407);
}

static uint32_t draw(uint32_t below) {
    uint32_t drawn = (uint32_t)(next() >> 33);
    return below == 0 ? 0 : drawn % below;
}

static bool rarely(void) {
    return draw(32) == 0;
}

static uint32_t draw_page(uint32_t pages) {
    return rarely() ? pages + draw(3) : draw(pages);
}

static uint32_t draw_user(const service *it, uint32_t seat) {
    uint32_t users = it->options.users, seats = it->options.seats;
    if (rarely())
        return draw(2) == 0 ? users + draw(3) : UINT32_MAX;
    uint32_t user = draw(users);
    return draw(8) == 0 ? user : user - user % seats + seat;
}

static void say(const char *name, uint32_t status) {
    printf("%s %s", name, likes_status_text(status));
}

static void say_last(uint32_t last) {
    if (last == LIKES_NO_PAGE)
        printf(" -");
    else
        printf(" %" PRIu32, last);
}

static bool is_shown(uint32_t status) {
    return status == LIKES_SEEN || status == LIKES_GLIMPSED;
}

static void say_answer(const char *name, const likes_answer *answer) {
    say(name, answer->status);
    if (is_shown(answer->status)) {
        say_last(answer->last);
        printf(" %" PRIu64, answer->count);
    }
}

static void say_lasts(uint32_t status, const uint32_t *lasts, uint32_t length) {
    say("lasts", status);
    for (uint32_t i = 0; status == LIKES_OK && i < length; i++)
        say_last(lasts[i]);
}

static void say_counts(const char *name, uint32_t status, const uint64_t *counts, uint32_t length) {
    say(name, status);
    for (uint32_t i = 0; status == LIKES_COUNTED && i < length; i++)
        printf(" %" PRIu64, counts[i]);
}

static bool open_service(service *it) {
    uint64_t counts[FEW];
    uint32_t marks[FEW], lasts[FEW], marks_len, lasts_len = 0;
    it->pages = rarely() ? 0 : 1 + draw(6);
    for (uint32_t i = 0; i < it->pages; i++)
        counts[i] = draw(100);
    if (rarely() && it->pages > 0)
        counts[0] = LIKES_MAX_COUNT + 1;
    it->options.seats = rarely() ? 65 + draw(2) : 1 + draw(3);
    it->options.users = rarely() ? 0 : 1 + draw(12);
    it->options.room = rarely() ? LIKES_MAX_ROOM + 1 : 1 + draw(3);
    it->options.hot = rarely() ? LIKES_MAX_HOT + 1 : 512 * draw(2);
    marks_len = draw(3);
    for (uint32_t i = 0; i < marks_len; i++)
        marks[i] = draw_page(it->pages);
    if (draw(3) != 0)
        lasts_len = it->options.users + rarely();
    for (uint32_t i = 0; i < lasts_len; i++)
        lasts[i] = draw(2) == 0 ? LIKES_NO_PAGE : draw_page(it->pages);
    uint32_t status = open_core(it->options, counts, it->pages, marks, marks_len, lasts, lasts_len, &it->driver);
    say("open", status);
    printf("\n");
    return status == LIKES_OK;
}

static void take_all(service *it) {
    for (uint32_t i = 0; i <= it->options.seats; i++) {
        say("seat", likes_driver_take_seat(&it->driver, &it->seats[i]));
        printf("\n");
    }
    likes_phase second = {0};
    say("phase", likes_driver_take_phase(&it->driver, &it->phase));
    say("\nphase", likes_driver_take_phase(&it->driver, &second));
    printf("\n");
}

static void run_row(service *it, uint32_t number) {
    likes_request row[FEW];
    likes_answer answers[FEW];
    uint32_t length = draw(5);
    for (uint32_t i = 0; i < length; i++) {
        row[i] = (likes_request){.tag = i};
        row[i].op = draw(3);
        row[i].user = draw_user(it, number);
        row[i].page = draw_page(it->pages);
    }
    size_t done = likes_seat_run(&it->seats[number], row, length, answers, length);
    printf("run");
    for (size_t i = 0; i < length && i <= done; i++)
        say_answer(i == 0 ? "" : ",", &answers[i]);
}

static void take_found(likes_seat *seat) {
    likes_found found;
    if (!likes_seat_take_found(seat, &found)) {
        printf("none");
        return;
    }
    printf("found %" PRIu64 " %" PRIu64 " %" PRIu64 " %" PRIu64, found.tag, found.count, found.asked, found.ran);
    printf(" %" PRIu32 " %" PRIu32, found.user, found.page);
    say_last(found.last);
}

static void write_counts(service *it, bool is_snapshot) {
    uint64_t counts[FEW];
    uint32_t from = draw(it->pages + 1), length = draw(it->pages + 1);
    if (is_snapshot)
        say_counts("snapshot", likes_driver_snapshot(&it->driver, from, counts, length), counts, length);
    else
        say_counts("counts", likes_driver_last_counts(&it->driver, from, counts, length), counts, length);
}

static void propose(service *it) {
    uint32_t pages[FEW], length = draw(3);
    for (uint32_t i = 0; i < length; i++)
        pages[i] = draw_page(it->pages);
    say("propose", likes_driver_propose(&it->driver, pages, length));
}

static void tell_split_pages(service *it) {
    uint32_t pages[FEW];
    size_t told = likes_driver_split_pages(&it->driver, pages, draw(4));
    printf("split");
    for (size_t i = 0; i < told; i++)
        printf(" %" PRIu32, pages[i]);
}

/* One of the calls that come less often. */
static void call_other(service *it, likes_seat *seat) {
    switch (draw(7)) {
    case 0:
        propose(it);
        break;
    case 1:
        tell_split_pages(it);
        break;
    case 2:
        printf("phase %" PRIu64, likes_seat_phase(seat));
        break;
    case 3:
        printf("phase %" PRIu64, likes_driver_phase(&it->driver));
        break;
    case 4:
        printf("phase %" PRIu64, likes_phase_now(&it->phase));
        break;
    case 5:
        if (draw(4) == 0)
            say("retire", likes_seat_retire(seat));
        break;
    default:
        say("come back", likes_seat_come_back(seat));
    }
}

static void like_or_look(service *it, uint32_t number, uint32_t kind) {
    likes_seat *seat = &it->seats[number];
    likes_answer answer;
    uint32_t user = draw_user(it, number), page = draw_page(it->pages);
    if (kind < 6) {
        say("like", likes_seat_like(seat, user, page));
    } else if (kind < 8) {
        likes_seat_look(seat, user, page, next(), &answer);
        say_answer("look", &answer);
    } else {
        likes_seat_glance(seat, user, page, &answer);
        say_answer("glance", &answer);
    }
}

static void tell_lasts(service *it, uint32_t number, bool is_one) {
    uint32_t lasts[FEW];
    if (is_one) {
        say_lasts(likes_seat_last(&it->seats[number], draw_user(it, number), lasts), lasts, 1);
    } else {
        uint32_t from = draw(5), length = draw(5);
        say_lasts(likes_seat_lasts(&it->seats[number], from, lasts, length), lasts, length);
    }
}

static void call(service *it) {
    uint32_t number = draw(it->options.seats), kind = draw(20);
    if (kind < 9)
        like_or_look(it, number, kind);
    else if (kind == 9)
        run_row(it, number);
    else if (kind == 10)
        take_found(&it->seats[number]);
    else if (kind < 13)
        tell_lasts(it, number, kind == 11);
    else if (kind < 15)
        say("turn", likes_seat_turn(&it->seats[number]));
    else if (kind < 17)
        say("driver", likes_driver_turn(&it->driver, draw(3)));
    else if (kind < 19)
        write_counts(it, kind == 17);
    else
        call_other(it, &it->seats[number]);
    printf("\n");
}

static void end(service *it) {
    uint64_t counts[FEW];
    uint32_t lasts[FEW], status, seats = it->options.seats;
    do {
        for (uint32_t i = 0; i < seats; i++) {
            say("retire", likes_seat_retire(&it->seats[i]));
            printf("\n");
        }
        status = likes_driver_turn(&it->driver, LIKES_END_IF_IT_SERVES);
        say("driver", status);
        printf("\n");
    } while (status != LIKES_ENDED);
    say_counts("counts", likes_driver_last_counts(&it->driver, 0, counts, it->pages), counts, it->pages);
    printf("\n");
    for (uint32_t i = 0; i < seats; i++) {
        uint32_t length = (it->options.users + seats - 1 - i) / seats;
        say_lasts(likes_seat_lasts(&it->seats[i], 0, lasts, length), lasts, length);
        printf("\n");
        likes_seat_free(&it->seats[i]);
    }
    likes_phase_free(&it->phase);
    likes_driver_free(&it->driver);
}

/* A service that threads share. */
typedef struct {
    uint32_t users, pages, seats;
    likes_service *at;
} shared;

static uint32_t draw_any_user(const shared *it) {
    if (rarely())
        return draw(2) == 0 ? it->users + draw(3) : UINT32_MAX;
    return draw(it->users);
}

/* What was asked for is done, or why it isn't. */
static void say_done(const char *name, uint32_t status) {
    printf("%s %s\n", name, likes_is_success(status) ? "ok" : likes_status_text(status));
}

static void say_shown(const char *name, uint32_t status, const likes_answer *answer, bool has_count) {
    printf("%s", name);
    if (is_shown(status))
        say_last(answer->last);
    else
        printf(" %s", likes_status_text(status));
    if (is_shown(status) && has_count)
        printf(" %" PRIu64, answer->count);
    printf("\n");
}

static void list_counts(const shared *it, const uint64_t *counts) {
    for (uint32_t i = 0; i < it->pages; i++)
        printf(" %" PRIu64, counts[i]);
}

static void list_lasts(const shared *it, const uint32_t *lasts) {
    for (uint32_t i = 0; i < it->users; i++)
        say_last(lasts[i]);
    printf("\n");
}

static void like_or_look_shared(shared *it, uint32_t kind) {
    likes_answer answer;
    uint32_t user = draw_any_user(it), page = draw_page(it->pages);
    if (kind < 4)
        say_done("like", likes_service_like(it->at, user, page));
    else if (kind == 4)
        say_shown("look", likes_service_look(it->at, user, page, &answer), &answer, true);
    else if (kind == 5)
        say_shown("within", likes_service_look_within(it->at, user, page, 10000000, &answer), &answer, true);
    else
        say_shown("glance", likes_service_glance(it->at, user, page, &answer), &answer, false);
}

static void tell_shared(shared *it, uint32_t kind) {
    uint64_t counts[FEW];
    uint32_t lasts[FEW];
    if (kind == 7) {
        uint32_t status = likes_service_last(it->at, draw_any_user(it), lasts);
        printf("last");
        if (status == LIKES_OK)
            say_last(lasts[0]);
        else
            printf(" %s", likes_status_text(status));
        printf("\n");
    } else if (kind == 8) {
        likes_service_lasts(it->at, lasts, it->users);
        printf("lasts");
        list_lasts(it, lasts);
    } else if (kind == 9) {
        likes_service_counts(it->at, counts, it->pages);
        printf("counts");
        list_counts(it, counts);
        printf("\n");
    } else {
        likes_service_snapshot(it->at, counts, it->pages, lasts, it->users);
        printf("snapshot");
        list_counts(it, counts);
        list_lasts(it, lasts);
    }
}

static void write_shared(shared *it) {
    likes_writer *writer = NULL;
    likes_answer answer;
    uint64_t counts[FEW];
    likes_writer_open(it->at, &writer);
    for (uint32_t i = 0, length = draw(100); i < length; i++) {
        uint32_t user = draw_any_user(it), page = draw_page(it->pages);
        uint32_t status = likes_writer_like(writer, user, page);
        if (status != LIKES_OK)
            say_done("kept", status);
    }
    uint32_t user = draw_any_user(it), page = draw_page(it->pages);
    say_shown("shown", likes_writer_look(writer, user, page, &answer), &answer, false);
    say_done("flush", likes_writer_flush(writer));
    say_done("stop", likes_service_stop(it->at, counts, it->pages));
    say_done("close", likes_writer_close(writer));
}

static void propose_shared(shared *it) {
    uint32_t pages[FEW], length = draw(3);
    for (uint32_t i = 0; i < length; i++)
        pages[i] = draw_page(it->pages);
    say_done("propose", likes_service_propose(it->at, pages, length));
}

static void run_shared(shared *it) {
    likes_request row[FEW];
    likes_answer answers[FEW];
    uint32_t number = draw(it->seats), length = draw(5);
    for (uint32_t i = 0; i < length; i++) {
        row[i] = (likes_request){.op = draw(2) == 0 ? LIKES_LIKE : LIKES_GLANCE};
        row[i].user = draw_any_user(it);
        row[i].page = draw_page(it->pages);
    }
    likes_service_lock(it->at, number);
    likes_service_run(it->at, number, row, length, answers);
    likes_service_unlock(it->at, number);
    for (uint32_t i = 0; i < length; i++) {
        if (answers[i].status == LIKES_LIKED)
            say_done("row", LIKES_OK);
        else
            say_shown("row", answers[i].status, &answers[i], false);
    }
}

static void leave_shared(shared *it) {
    uint32_t number = draw(it->seats + 1);
    say_done("retire", likes_service_retire_seat(it->at, number));
    say_done("like", likes_service_like(it->at, 0, 0));
    say_done("back", likes_service_bring_back_seat(it->at, number));
}

static void say_statistics(shared *it) {
    likes_statistics told;
    likes_service_statistics(it->at, &told);
    printf("statistics %" PRIu64 " %" PRIu64 "\n", told.likes, told.looks);
}

static void call_shared(shared *it) {
    uint32_t kind = draw(16);
    if (kind < 7) {
        like_or_look_shared(it, kind);
    } else if (kind < 11) {
        tell_shared(it, kind);
    } else if (kind == 11) {
        write_shared(it);
    } else if (kind == 12) {
        propose_shared(it);
    } else if (kind == 13) {
        run_shared(it);
    } else if (kind == 14) {
        leave_shared(it);
    } else {
        say_statistics(it);
    }
}

static void open_and_call_shared(void) {
    shared it = {0};
    uint64_t counts[FEW];
    uint32_t lasts[FEW], mark = 0;
    it.pages = 1 + draw(6);
    for (uint32_t i = 0; i < it.pages; i++)
        counts[i] = draw(100);
    it.seats = 1 + draw(3);
    it.users = 1 + draw(12);
    likes_options options = {.seats = it.seats, .users = it.users};
    say_done("share", open_shared(options, counts, it.pages, &mark, draw(2), NULL, 0, 200, &it.at));
    for (int calls = 0; calls < SHARED_CALLS; calls++)
        call_shared(&it);
    likes_service_retire(it.at);
    likes_service_lasts(it.at, lasts, it.users);
    likes_service_stop(it.at, counts, it.pages);
    printf("stop");
    list_counts(&it, counts);
    list_lasts(&it, lasts);
    say_statistics(&it);
    likes_service_close(it.at);
}

int main(void) {
    for (int services = 0; services < SERVICES; services++) {
        service it = {0};
        if (!open_service(&it))
            continue;
        take_all(&it);
        for (int calls = 0; calls < CALLS; calls++)
            call(&it);
        end(&it);
    }
    for (int services = 0; services < SHARED; services++)
        open_and_call_shared();
    return 0;
}
