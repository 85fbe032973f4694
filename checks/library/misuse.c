/* Wrong uses of likes_service.h, each of which must be answered by a status: calls of a service that is NULL, or was
 * stopped; a service that is opened where there is one; wrong seats and periods; seats that have all left; looks with
 * the host's own tags at a seat that also answers likes_service_look; arrays of no entries, of a wrong length, or with
 * a length that was forgotten; and each pointer that is NULL. Threads read the phase while it changes, and a service
 * can't start its thread. Pages are proposed and split. A signal that the host blocks ends nothing.
 *
 * If a call is answered otherwise, it prints a line and exits with status 1. After 30 seconds a signal ends it. */
#include "harness.h"

#include <errno.h>
#include <signal.h>

/* The linker calls this in place of pthread_create: while this is set, it refuses. */
static bool has_no_threads;

int __real_pthread_create(pthread_t *thread, const pthread_attr_t *attributes, void *(*begin)(void *), void *at);
int __wrap_pthread_create(pthread_t *thread, const pthread_attr_t *attributes, void *(*begin)(void *), void *at);

int __wrap_pthread_create(pthread_t *thread, const pthread_attr_t *attributes, void *(*begin)(void *), void *at) {
    if (has_no_threads)
        errno = EAGAIN; /* the C library's may set it too */
    return has_no_threads ? EAGAIN : __real_pthread_create(thread, attributes, begin, at);
}

enum { LOOKS = 200 };

static likes_service *service;
static bool is_over;

/* A service with a page that is split in every split phase, and one that never is. */
static uint32_t start(uint32_t seats, uint32_t room, uint32_t period) {
    static const uint64_t counts[] = {10, 20};
    static const uint32_t marks[] = {0};
    likes_options options = {.seats = seats, .users = 100, .room = room, .hot = 0};
    return open_shared(options, counts, 2, marks, 1, NULL, 0, period, &service);
}

/* Every call of a service answers this. */
static void all_refused(likes_service *it, uint32_t status) {
    likes_request request = {.op = LIKES_LIKE};
    likes_answer answer = {.count = 1};
    likes_found found;
    likes_statistics told = {.likes = 8};
    likes_writer *writer = NULL;
    uint64_t counts[2] = {5, 6};
    uint32_t last = 7;
    IS(likes_service_like(it, 0, 0), status);
    IS(likes_service_look(it, 0, 0, &answer), status);
    IS(answer.status, status);
    IS(answer.count, 0);
    IS(likes_service_glance(it, 0, 0, &answer), status);
    IS(answer.status, status);
    IS(likes_service_look_within(it, 0, 0, 1000, &answer), status);
    IS(answer.status, status);
    IS(likes_service_lock(it, 0) == NULL, true);
    IS(likes_service_run(it, 0, &request, 1, &answer), 0);
    IS(answer.status, status);
    IS(likes_service_run(it, 0, &request, 0, &answer), 0);
    IS(likes_service_take_found(it, 0, &found), false);
    likes_service_unlock(it, 0);
    IS(likes_service_drive(it), status);
    IS(likes_service_phase(it), 0);
    likes_service_tick(it);
    likes_service_seat_turns(it);
    IS(likes_service_counts(it, counts, 2), status);
    IS(likes_service_snapshot(it, counts, 2, &last, 1), status);
    /* What a service did is told after its stop, too. */
    IS(likes_service_statistics(it, &told), status == LIKES_STOPPED ? (uint32_t)LIKES_OK : status);
    IS(status == LIKES_STOPPED || told.likes == 0, true);
    IS(likes_service_last(it, 0, &last), status);
    IS(likes_service_lasts(it, &last, 1), status);
    IS(likes_service_propose(it, &last, 1), status);
    IS(likes_service_split_pages(it, &last, 1), 0);
    IS(likes_service_seats(it), 0);
    IS(likes_service_retire_seat(it, 0), status);
    IS(likes_service_bring_back_seat(it, 0), status);
    IS(likes_service_fault(it), status);
    IS(likes_service_seat_fault(it, 0), status);
    IS(likes_writer_open(it, &writer), status);
    IS(writer == NULL, true);
    IS(last, 7);
    IS(likes_service_retire(it), status);
    IS(likes_service_stop(it, counts, 2), status);
    IS(counts[0], 5);
    IS(counts[1], 6);
}

/* Stops the service, and closes it. */
static void stop(uint64_t *totals, size_t pages) {
    IS(likes_service_stop(service, totals, pages), LIKES_OK);
    all_refused(service, LIKES_STOPPED);
    IS(likes_service_close(service), LIKES_OK);
    service = NULL;
}

static void not_started(void) {
    uint64_t totals[2];
    all_refused(service, LIKES_NOT_STARTED);
    IS(start(LIKES_MAX_SEATS + 1, 4, 1000), LIKES_WRONG_SEATS);
    all_refused(service, LIKES_NOT_STARTED);
    IS(start(2, 4, LIKES_MAX_PERIOD_US + 1), LIKES_WRONG_PERIOD);
    all_refused(service, LIKES_NOT_STARTED);
    IS(start(2, 4, 1), LIKES_OK);
    IS(start(2, 4, 1), LIKES_IN_USE);
    IS(likes_service_like(service, 0, 0), LIKES_LIKED);
    IS(likes_service_stop(service, totals, 1), LIKES_WRONG_LENGTH);
    stop(totals, 2);
    IS(totals[0], 11);
    all_refused(service, LIKES_NOT_STARTED);
}

/* The driver's thread can't be started: nothing is left of the service, which can be started later. */
static void no_thread(void) {
    uint64_t totals[2];
    has_no_threads = true;
    IS(start(2, 4, 1000), LIKES_NO_THREAD);
    all_refused(service, LIKES_NOT_STARTED);
    has_no_threads = false;
    IS(start(2, 4, 1000), LIKES_OK);
    stop(totals, 2);
    IS(totals[0], 10);
}

/* Pages that are proposed one after the other, without a call: each is split after a while, and no other. */
static void proposals(void) {
    static const uint64_t counts[] = {10, 20, 30};
    uint64_t totals[3];
    uint32_t split[LIKES_MAX_SPLIT];
    likes_options options = {.seats = 2, .users = 2, .room = 1};
    IS(open_shared(options, counts, 3, NULL, 0, NULL, 0, 100, &service), LIKES_OK);
    IS(likes_service_split_pages(service, NULL, 0), 0);
    IS(likes_service_split_pages(service, split, LIKES_MAX_SPLIT), 0);
    for (uint32_t page = 0; page < 3; page++) {
        IS(likes_service_propose(service, &page, 1), LIKES_OK);
        do {
            sleep_for(100000);
            split[0] = UINT32_MAX;
            IS(likes_service_split_pages(service, split, LIKES_MAX_SPLIT) <= 1, true);
        } while (split[0] != page);
        sleep_for(5000000); /* until the service rests */
    }
    for (uint32_t page = 0; page < 3; page++)
        IS(likes_service_like(service, 1, page), LIKES_LIKED);
    IS(likes_service_propose(service, NULL, 0), LIKES_OK);
    stop(totals, 3);
    for (uint32_t page = 0; page < 3; page++)
        IS(totals[page], counts[page] + 1);
}

static void unknown_seats(void) {
    static const uint32_t numbers[] = {2, 63, 64, 65, UINT32_MAX};
    likes_request request = {.op = LIKES_LIKE};
    likes_answer answer;
    likes_found found;
    uint64_t totals[2];
    IS(start(2, 4, 1000), LIKES_OK);
    for (size_t i = 0; i < sizeof numbers / sizeof *numbers; i++) {
        IS(likes_service_seat_fault(service, numbers[i]), LIKES_UNKNOWN_SEAT);
        IS(likes_service_lock(service, numbers[i]) == NULL, true);
        IS(likes_service_run(service, numbers[i], &request, 1, &answer), 0);
        IS(answer.status, LIKES_UNKNOWN_SEAT);
        IS(likes_service_take_found(service, numbers[i], &found), false);
        likes_service_unlock(service, numbers[i]);
    }
    IS(likes_service_seat_fault(service, 1), LIKES_OK);
    stop(totals, 2);
}

/* All seats leave while the driver's thread goes on: it takes no time, and the counts are the final ones. */
static void all_gone(void) {
    uint64_t totals[2];
    likes_answer answer;
    IS(start(2, 4, 1000), LIKES_OK);
    IS(likes_service_like(service, 0, 0), LIKES_LIKED);
    IS(likes_service_like(service, 1, 1), LIKES_LIKED);
    for (uint32_t i = 0; i < 2; i++) {
        while (likes_seat_retire(likes_service_lock(service, i)) != LIKES_GONE) {
            likes_service_unlock(service, i);
            sched_yield();
        }
        likes_service_unlock(service, i);
    }
    sleep_for(100000000);
    uint64_t before = clock_of(CLOCK_PROCESS_CPUTIME_ID);
    sleep_for(300000000);
    IS(clock_of(CLOCK_PROCESS_CPUTIME_ID) - before < 100000000, true);
    for (int times = 0; times < 2; times++) {
        IS(likes_service_counts(service, totals, 2), LIKES_COUNTED);
        IS(totals[0], 11);
        IS(totals[1], 21);
    }
    IS(likes_service_like(service, 0, 0), LIKES_GONE);
    IS(likes_service_look(service, 0, 0, &answer), LIKES_GONE);
    stop(totals, 2);
    IS(totals[0], 11);
}

/* Makes a look at a seat by its row, with a tag. */
static uint32_t look_in_row(uint64_t tag) {
    likes_request request = {.tag = tag, .op = LIKES_LOOK};
    likes_answer answer;
    likes_service_lock(service, 0);
    likes_service_run(service, 0, &request, 1, &answer);
    likes_service_unlock(service, 0);
    return answer.status;
}

/* Takes the looks that waited, whose tags are 1, 2 and so on. */
static uint64_t take_tagged(uint64_t taken) {
    likes_found found;
    likes_service_lock(service, 0);
    while (likes_service_take_found(service, 0, &found))
        IS(found.tag, ++taken);
    likes_service_unlock(service, 0);
    return taken;
}

/* One thread asks both kinds of looks, and takes its own only where there is no room: each is answered, and none is
 * lost. */
static void tagged(void) {
    uint64_t totals[2], asked = 0, taken = 0, full = 0;
    likes_answer answer;
    IS(start(1, 4, 100), LIKES_OK);
    while (asked < LOOKS || full == 0) {
        uint32_t status = look_in_row(asked + 1);
        asked += status == LIKES_WAITS;
        IS(likes_service_look(service, 0, 0, &answer), LIKES_SEEN);
        IS(answer.count, 10);
        if (status == LIKES_NO_ROOM) {
            taken = take_tagged(taken);
            full++;
        }
    }
    IS(likes_service_retire(service), LIKES_OK);
    taken = take_tagged(taken);
    IS(taken, asked);
    stop(totals, 2);
}

/* Looks with tags of the service are refused, wherever they stand in a row, and the others are done. */
static void wrong_tags(void) {
    static const uint64_t tags[] = {UINT64_C(1) << 63, 7, UINT64_MAX, UINT64_MAX - 1, (UINT64_C(1) << 63) - 1};
    enum { TAGS = sizeof tags / sizeof *tags };
    likes_request row[TAGS], like = {.tag = UINT64_MAX, .page = 1}; /* a like has no tag */
    likes_request none = {.tag = UINT64_MAX, .op = LIKES_LOOK, .reserved = 1};
    likes_answer answers[TAGS];
    likes_found found;
    uint64_t totals[2], taken = 0;
    IS(start(1, 8, 100), LIKES_OK);
    for (size_t i = 0; i < TAGS; i++)
        row[i] = (likes_request){.tag = tags[i], .op = LIKES_LOOK};
    likes_seat *seat = likes_service_lock(service, 0);
    IS(likes_service_run(service, 0, &none, 1, answers), 1);
    IS(answers[0].status, LIKES_UNKNOWN_OP);
    for (int times = 0; times < 100; times++) {
        uint64_t waits = 0;
        IS(likes_service_run(service, 0, row, TAGS, answers), TAGS);
        for (size_t i = 0; i < TAGS; i++) {
            if (tags[i] >> 63 == 1)
                IS(answers[i].status, LIKES_WRONG_TAG);
            else
                IS(answers[i].status == LIKES_SEEN || answers[i].status == LIKES_WAITS, true);
            waits += answers[i].status == LIKES_WAITS;
        }
        IS(likes_service_run(service, 0, &like, 1, answers), 1);
        IS(answers[0].status, LIKES_LIKED);
        while (waits > 0) {
            likes_service_drive(service);
            likes_seat_turn(seat);
            for (; likes_service_take_found(service, 0, &found); taken++, waits--)
                IS(found.tag == tags[1] || found.tag == tags[4], true);
        }
    }
    likes_service_unlock(service, 0);
    stop(totals, 2);
    IS(totals[1], 120);
}

/* A service has the defaults of likes_open, and a period of its own. */
static void defaults(void) {
    static const uint64_t counts[] = {10, 20};
    long processors = sysconf(_SC_NPROCESSORS_ONLN);
    likes_options options = {.counts = counts, .pages = 2, .users = 100};
    likes_answer answer;
    uint64_t totals[2];
    IS(likes_service_open(&options, &service), LIKES_OK);
    IS(likes_service_seats(service), processors < 4 ? 16 * (uint64_t)processors : 64);
    IS(likes_service_like(service, 99, 1), LIKES_LIKED);
    IS(likes_service_look(service, 99, 1, &answer), LIKES_SEEN);
    IS(answer.count, 21);
    stop(totals, 2);
    options.period_us = LIKES_MAX_PERIOD_US + 1;
    IS(likes_service_open(&options, &service), LIKES_WRONG_PERIOD);
    options.period_us = UINT32_MAX;
    IS(likes_service_open(&options, &service), LIKES_WRONG_PERIOD);
    options.period_us = LIKES_MAX_PERIOD_US;
    options.hot = LIKES_NO_HOT;
    IS(likes_service_open(&options, &service), LIKES_OK);
    stop(totals, 2);
    options.hot = LIKES_NO_HOT - 1;
    IS(likes_service_open(&options, &service), LIKES_WRONG_HOT);
    IS(service == NULL, true);
}

/* Asks likes_service_look again and again: each look is answered. */
static void *ask(void *at) {
    uint64_t *looks = (uint64_t *)at;
    while (!is_set(&is_over)) {
        likes_answer answer;
        IS(likes_service_look(service, 0, 0, &answer), LIKES_SEEN);
        IS(answer.count, 10);
        ++*looks;
    }
    return NULL;
}

/* Holds the seat, makes a look, and takes found looks of all kinds for a while: only its own come, one by one. */
static uint64_t take_some(uint64_t asked, uint64_t *taken) {
    likes_answer answer;
    likes_found found;
    likes_seat *seat = likes_service_lock(service, 0);
    asked += likes_seat_look(seat, 0, 0, asked + 1, &answer) == LIKES_WAITS;
    for (uint64_t end = clock_now() + 1000000; clock_now() < end;) {
        likes_service_drive(service);
        likes_seat_turn(seat);
        while (likes_seat_take_found(seat, &found))
            IS(found.tag, ++*taken);
    }
    likes_service_unlock(service, 0);
    return asked;
}

/* Threads wait for looks at one seat, at which this one makes and takes looks of its own: none goes astray. */
static void taken(int askers) {
    pthread_t threads[2];
    uint64_t looks[2] = {0}, totals[2], asked = 0, took = 0;
    likes_found found;
    is_over = false;
    IS(start(1, 8, 100), LIKES_OK);
    for (int i = 0; i < askers; i++)
        start_thread(&threads[i], ask, &looks[i]);
    while (took < LOOKS) {
        asked = take_some(asked, &took);
        sleep_for(500000);
    }
    set(&is_over);
    for (int i = 0; i < askers; i++)
        pthread_join(threads[i], NULL);
    IS(looks[0] + looks[1] > 0, true);
    IS(likes_service_retire(service), LIKES_OK);
    likes_seat *seat = likes_service_lock(service, 0);
    while (likes_seat_take_found(seat, &found))
        IS(found.tag, ++took);
    likes_service_unlock(service, 0);
    IS(took, asked);
    stop(totals, 2);
}

/* Reads the phase until the end: it never falls, and so many changes are seen. */
static void *read_phases(void *at) {
    uint64_t phase = 0, *changes = (uint64_t *)at;
    while (!is_set(&is_over)) {
        uint64_t now = likes_service_phase(service);
        IS(now >= phase, true);
        __atomic_fetch_add(changes, now > phase, __ATOMIC_SEQ_CST);
        phase = now;
    }
    return NULL;
}

/* Threads read the phase while the driver's thread changes it. Likes keep it going. */
static void phases(void) {
    enum { READERS = 3, CHANGES = 20 };
    pthread_t threads[READERS];
    uint64_t changes[READERS] = {0}, totals[2], phase;
    is_over = false;
    IS(likes_service_phase(service), 0);
    IS(start(2, 4, 100), LIKES_OK);
    for (int i = 0; i < READERS; i++)
        start_thread(&threads[i], read_phases, &changes[i]);
    for (int i = 0; i < READERS; i++)
        while (__atomic_load_n(&changes[i], __ATOMIC_SEQ_CST) < CHANGES) {
            IS(likes_service_like(service, 0, 0), LIKES_LIKED);
            sleep_for(100000);
        }
    set(&is_over);
    for (int i = 0; i < READERS; i++)
        pthread_join(threads[i], NULL);
    IS(likes_service_retire(service), LIKES_OK);
    phase = likes_service_phase(service);
    IS(phase >= CHANGES && phase % 2 == 0, true);
    stop(totals, 2);
    IS(likes_service_phase(service), 0);
}

/* Arrays of no entries may be NULL. */
static void no_entries(void) {
    uint64_t totals[1];
    likes_options options = {.seats = 1, .users = 1, .room = 1};
    IS(open_shared(options, NULL, 0, NULL, 0, NULL, 0, 1000, &service), LIKES_WRONG_PAGES);
    IS(open_shared(options, (const uint64_t[]){5}, 1, NULL, 0, NULL, 0, 1000, &service), LIKES_OK);
    likes_seat *seat = likes_service_lock(service, 0);
    IS(likes_service_run(service, 0, NULL, 0, NULL), 0);
    IS(likes_seat_take_all_found(seat, NULL, 0), 0);
    likes_service_unlock(service, 0);
    IS(likes_service_run(service, 1, NULL, 0, NULL), 0);
    IS(likes_service_counts(service, NULL, 0), LIKES_WRONG_LENGTH);
    for (int times = 0; times < 3; times++) {
        IS(likes_service_counts(service, totals, 1), LIKES_COUNTED);
        IS(totals[0], 5);
    }
    IS(likes_service_lasts(service, NULL, 0), LIKES_WRONG_LENGTH);
    IS(likes_service_snapshot(service, NULL, 0, NULL, 0), LIKES_WRONG_LENGTH);
    IS(likes_service_stop(service, NULL, 0), LIKES_WRONG_LENGTH);
    stop(totals, 1);
    IS(totals[0], 5);
}

/* Counts that are NULL are zeros. Last likes or marks without a length, or a length without an array, are refused. */
static void forgotten(void) {
    static const uint32_t lasts[] = {1, 0};
    uint64_t totals[3];
    likes_options options = {.pages = 3, .users = 2};
    IS(likes_service_open(&options, &service), LIKES_OK);
    IS(likes_service_like(service, 1, 2), LIKES_LIKED);
    stop(totals, 3);
    IS(totals[0] + totals[1], 0);
    IS(totals[2], 1);
    options.lasts = lasts;
    IS(likes_service_open(&options, &service), LIKES_WRONG_LASTS);
    options = (likes_options){.pages = 3, .users = 2, .lasts_len = 2};
    IS(likes_service_open(&options, &service), LIKES_WRONG_LASTS);
    options = (likes_options){.pages = 3, .users = 2, .marks = lasts};
    IS(likes_service_open(&options, &service), LIKES_WRONG_MARKS);
    options = (likes_options){.pages = 3, .users = 2, .marks_len = 1};
    IS(likes_service_open(&options, &service), LIKES_WRONG_MARKS);
    options = (likes_options){.users = 2};
    IS(likes_service_open(&options, &service), LIKES_WRONG_PAGES);
    options = (likes_options){.pages = LIKES_MAX_PAGES + 1, .users = 2};
    IS(likes_service_open(&options, &service), LIKES_WRONG_PAGES);
    IS(service == NULL, true);
}

/* Each pointer of a call is NULL in turn, of a service in any state: nothing is done, and nothing else is said. */
static void null_pointers(likes_service *it) {
    likes_options options = {.pages = 1, .users = 1};
    likes_service *none = NULL;
    likes_request request = {.op = LIKES_LIKE};
    likes_answer answer = {.count = 1};
    uint64_t counts[2];
    uint32_t lasts[100];
    IS(likes_service_open(NULL, &none), LIKES_NULL);
    IS(likes_service_open(NULL, &it), LIKES_NULL);
    IS(likes_service_open(&options, NULL), LIKES_NULL);
    IS(none == NULL, true);
    IS(likes_service_look(it, 0, 0, NULL), LIKES_NULL);
    IS(likes_service_look_within(it, 0, 0, 1000, NULL), LIKES_NULL);
    IS(likes_service_glance(it, 0, 0, NULL), LIKES_NULL);
    IS(likes_service_last(it, 0, NULL), LIKES_NULL);
    IS(likes_service_lasts(it, NULL, 100), LIKES_NULL);
    IS(likes_service_counts(it, NULL, 2), LIKES_NULL);
    IS(likes_service_snapshot(it, NULL, 2, lasts, 100), LIKES_NULL);
    IS(likes_service_snapshot(it, counts, 2, NULL, 100), LIKES_NULL);
    IS(likes_service_statistics(it, NULL), LIKES_NULL);
    IS(likes_service_propose(it, NULL, 1), LIKES_NULL);
    IS(likes_service_split_pages(it, NULL, 1), 0);
    IS(likes_writer_open(it, NULL), LIKES_NULL);
    IS(likes_writer_look(NULL, 0, 0, NULL), LIKES_NULL);
    IS(likes_service_stop(it, NULL, 2), LIKES_NULL);
    IS(likes_service_run(it, 0, &request, 1, NULL), 0);
    IS(likes_service_run(it, 0, NULL, 1, NULL), 0);
    IS(likes_service_run(it, 0, NULL, 1, &answer), 0);
    IS(answer.status, LIKES_NULL);
    IS(answer.count, 0);
    IS(likes_service_take_found(it, 0, NULL), false);
}

static void nulls(void) {
    uint64_t totals[2];
    likes_writer *writer = NULL;
    null_pointers(NULL);
    IS(start(1, 4, 1000), LIKES_OK);
    null_pointers(service);
    likes_seat *seat = likes_service_lock(service, 0);
    null_pointers(service);
    IS(likes_seat_take_all_found(seat, NULL, 1), 0);
    likes_service_unlock(service, 0);
    IS(likes_writer_open(service, &writer), LIKES_OK);
    IS(likes_writer_like(writer, 0, 1), LIKES_OK);
    IS(likes_writer_look(writer, 0, 1, NULL), LIKES_NULL);
    null_pointers(service);
    IS(likes_writer_close(writer), LIKES_OK);
    IS(likes_service_stop(service, totals, 2), LIKES_OK);
    IS(totals[0], 10);
    IS(totals[1], 21);
    null_pointers(service);
    IS(likes_seat_like(seat, 0, 0), LIKES_NOT_LOCKED);
    IS(likes_service_close(service), LIKES_OK);
    service = NULL;
}

/* Last likes, while the service goes on and after all seats have retired, from which another service goes on. */
static void last_likes(void) {
    static const uint64_t counts[] = {10, 20};
    uint64_t totals[2];
    uint32_t last, lasts[100];
    likes_options options = {.seats = 64, .users = 100, .room = 4, .hot = 0};
    IS(start(64, 4, 1000), LIKES_OK);
    for (uint32_t user = 0; user < 100; user += 3)
        IS(likes_service_like(service, user, user % 2), LIKES_LIKED);
    IS(likes_service_last(service, 63, &last), LIKES_OK);
    IS(last, 1);
    IS(likes_service_last(service, 64, &last), LIKES_OK);
    IS(last, LIKES_NO_PAGE);
    IS(likes_service_last(service, 100, &last), LIKES_UNKNOWN_USER);
    IS(likes_service_lasts(service, lasts, 99), LIKES_WRONG_LENGTH);
    IS(likes_service_lasts(service, lasts, 101), LIKES_WRONG_LENGTH);
    IS(likes_service_retire(service), LIKES_OK);
    IS(likes_service_lasts(service, lasts, 100), LIKES_OK);
    for (uint32_t user = 0; user < 100; user++)
        IS(lasts[user], user % 3 == 0 ? user % 2 : LIKES_NO_PAGE);
    likes_seat *seat = likes_service_lock(service, 3);
    IS(likes_seat_come_back(seat), LIKES_GONE);
    IS(likes_seat_like(seat, 3, 0), LIKES_GONE);
    likes_service_unlock(service, 3);
    stop(totals, 2);
    lasts[1] = 2;
    IS(open_shared(options, counts, 2, NULL, 0, lasts, 100, 1000, &service), LIKES_WRONG_LASTS);
    lasts[1] = 1;
    IS(open_shared(options, counts, 2, NULL, 0, lasts, 100, 1000, &service), LIKES_OK);
    for (uint32_t user = 0; user < 100; user++) {
        IS(likes_service_last(service, user, &last), LIKES_OK);
        IS(last, lasts[user]);
    }
    stop(totals, 2);
}

/* A signal that the host's threads block waits for them. */
static void signals(void) {
    uint64_t totals[2];
    sigset_t set;
    int told = 0;
    sigemptyset(&set);
    sigaddset(&set, SIGUSR1);
    IS(start(1, 4, 1000), LIKES_OK);
    pthread_sigmask(SIG_BLOCK, &set, NULL);
    kill(getpid(), SIGUSR1);
    IS(sigwait(&set, &told), 0);
    IS(told, SIGUSR1);
    pthread_sigmask(SIG_UNBLOCK, &set, NULL);
    stop(totals, 2);
}

int main(void) {
    alarm(30);
    not_started();
    signals();
    no_thread();
    proposals();
    unknown_seats();
    all_gone();
    tagged();
    wrong_tags();
    defaults();
    taken(1);
    taken(2);
    phases();
    no_entries();
    forgotten();
    nulls();
    last_likes();
    puts("all wrong uses answered right");
    return 0;
}
