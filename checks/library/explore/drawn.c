/* Drawn calls of the clients of a service, and of a driver's seats, by one thread. It prints what each row of calls was
 * answered, as one number: the proved core and stub.c have to print the same.
 *
 * usage: drawn SEED ROWS [ROW], which prints each answer of that row instead. */
#include "likes.h"

#include <stdio.h>
#include <stdlib.h>
#include <string.h>

enum { SEATS = 3, USERS = 11, PAGES = 9, ROOM = 4, CLIENTS = 3, CALLS = 400, MOST = 6 };

static uint64_t state, sum;
static bool is_shown;

static uint32_t draw(uint32_t below) {
    state = state * UINT64_C(6364136223846793005) + UINT64_C(1442695040888963407);
    return (uint32_t)((state >> 33) % below);
}

/* Mostly below the first number, and sometimes a wrong one, below the second. */
static uint32_t draw_mostly(uint32_t below, uint32_t wrong) {
    return draw(16) == 0 ? draw(wrong) : draw(below);
}

static void note(uint64_t number) {
    sum = (sum ^ number) * UINT64_C(1099511628211);
    if (is_shown)
        printf(" %llu", (unsigned long long)number);
}

static void begin(const char *call) {
    if (is_shown)
        printf("\n%s:", call);
}

static void note_answer(const likes_answer *answer) {
    note(answer->status);
    note(answer->count);
    note(answer->last);
}

static void note_found(const likes_found *found) {
    note(found->tag);
    note(found->count);
    note(found->asked);
    note(found->ran);
    note(found->user);
    note(found->page);
    note(found->last);
}

static size_t draw_pages(uint32_t *pages) {
    size_t length = draw(MOST + 1);
    for (size_t i = 0; i < length; i++)
        pages[i] = draw_mostly(PAGES, PAGES + 2);
    return length;
}

static size_t draw_requests(likes_request *requests, uint32_t seat) {
    size_t length = draw(MOST + 1);
    for (size_t i = 0; i < length; i++) {
        uint32_t user = draw_mostly(USERS / SEATS, USERS) * SEATS + seat;
        requests[i] = (likes_request){draw(100), user, draw_mostly(PAGES, PAGES + 2), draw_mostly(3, 5), 0};
    }
    return length;
}

static size_t draw_likes(likes_pair *likes, uint32_t seat) {
    size_t length = draw(MOST + 1);
    for (size_t i = 0; i < length; i++)
        likes[i] = (likes_pair){draw_mostly(USERS / SEATS, USERS) * SEATS + seat, draw_mostly(PAGES, PAGES + 2)};
    return length;
}

/* Sorts split pages: their order is not told. */
static size_t sort(uint32_t *pages, size_t length) {
    for (size_t i = 1; i < length; i++)
        for (size_t j = i; j > 0 && pages[j - 1] > pages[j]; j--) {
            uint32_t page = pages[j];
            pages[j] = pages[j - 1];
            pages[j - 1] = page;
        }
    return length;
}

static likes_options options_of(void) {
    static const uint64_t counts[PAGES] = {1, 0, 7};
    static const uint32_t marks[] = {1, 3};
    likes_options options = {.counts = counts, .pages = PAGES, .users = USERS, .seats = SEATS, .room = ROOM};
    options.hot = LIKES_NO_HOT;
    if (draw(3) > 0) {
        options.marks = marks;
        options.marks_len = 1 + draw(2);
    }
    return options;
}

/* A call of a client at a seat. */
static void call_seat(likes_client *client, uint32_t seat) {
    uint32_t user = draw_mostly(USERS / SEATS, USERS) * SEATS + draw_mostly(1, SEATS) + seat % SEATS;
    uint32_t page = draw_mostly(PAGES, PAGES + 2), pages[MOST] = {0}, length = draw(MOST), from = draw_mostly(2, 9);
    likes_answer answers[MOST] = {{9, 9, 9}};
    likes_request requests[MOST];
    likes_pair likes[MOST];
    likes_found found = {0};
    uint64_t phase = 99;
    size_t counted = 99;
    uint32_t call = draw(15);
    begin("seat");
    note(call);
    switch (call) {
    case 0:
    case 1:
        note(likes_client_like(client, seat, user, page));
        break;
    case 2:
    case 3:
        note(likes_client_look(client, seat, user, page, draw(100), answers));
        break;
    case 4:
        note(likes_client_glance(client, seat, user, page, answers));
        break;
    case 5:
        note(likes_client_last(client, seat, user, pages));
        break;
    case 6:
        note(likes_client_lasts(client, seat, from, pages, length));
        break;
    case 7:
        note(likes_client_run(client, seat, requests, draw_requests(requests, seat), answers, 1 + draw(MOST)));
        break;
    case 8:
        note(likes_client_like_row(client, seat, likes, draw_likes(likes, seat), &counted));
        break;
    case 9:
        note(likes_client_take_found(client, seat, &found));
        break;
    case 10:
        note(draw(4) == 0 ? likes_client_retire(client, seat) : likes_client_turn(client, seat));
        break;
    case 11:
        note(likes_client_come_back(client, seat));
        break;
    case 12:
        note(likes_client_phase(client, seat, &phase));
        break;
    case 13:
        note(draw(3) == 0 ? likes_client_lock(client, seat) : likes_client_turn(client, seat));
        break;
    default:
        note(likes_client_unlock(client, seat));
    }
    for (uint32_t i = 0; i < MOST; i++) {
        note_answer(&answers[i]);
        note(pages[i]);
    }
    note_found(&found);
    note(phase);
    note(counted);
}

/* A call of a client at the driver. */
static void call_driver(likes_client *client) {
    uint64_t counts[PAGES + 1] = {0};
    uint32_t pages[PAGES] = {0}, from = draw_mostly(2, PAGES + 2);
    size_t length = draw(PAGES), written = 99;
    uint32_t call = draw(12);
    begin("driver");
    note(call);
    if (call < 7)
        note(likes_client_drive(client, draw_mostly(3, 4)));
    else if (call < 9)
        note(likes_client_snapshot(client, from, counts, length));
    else if (call == 9)
        note(draw(20) == 0 ? likes_client_last_counts(client, from, counts, length) : 0);
    else if (call == 10 && draw(4) == 0)
        note(likes_client_split_pages(client, NULL, 0, &written));
    else if (call == 10)
        note(likes_client_split_pages(client, pages, PAGES, &written));
    else
        note(likes_client_propose(client, pages, draw_pages(pages)));
    if (call == 10 && written <= PAGES)
        sort(pages, written);
    for (size_t i = 0; i < PAGES; i++) {
        note(counts[i]);
        note(pages[i]);
    }
    note(written);
}

static void reopen(likes_shared *shared, likes_client *client) {
    begin("client");
    if (draw(2) == 0)
        note(likes_client_close(client));
    else
        note(likes_client_open(shared, client));
}

/* Calls of clients, some of them empty, and then the end. */
static void of_clients(void) {
    likes_shared shared = {0};
    likes_client clients[CLIENTS] = {{NULL}};
    likes_options options = options_of();
    uint64_t counts[PAGES] = {0};
    note(likes_shared_open(&options, &shared));
    for (uint32_t n = 0; n < CLIENTS; n++)
        note(likes_client_open(&shared, &clients[n]));
    for (uint32_t n = 0; n < CALLS; n++) {
        likes_client *client = &clients[draw(CLIENTS)];
        uint32_t what = draw(40);
        if (what == 0)
            reopen(&shared, client);
        else if (what < 11)
            call_driver(client);
        else
            call_seat(client, draw_mostly(SEATS, SEATS + 1));
    }
    for (uint32_t n = 0; n < CLIENTS; n++) {
        note(likes_shared_close(&shared, counts, PAGES - draw(2)));
        note(likes_client_close(&clients[n]));
    }
    begin("close");
    note(likes_shared_close(&shared, counts, PAGES));
    for (uint32_t page = 0; page < PAGES; page++)
        note(counts[page]);
    likes_shared_free(&shared);
}

/* A call of a host's seat or driver. */
static void call_own(likes_driver *driver, likes_seat *seats) {
    uint32_t number = draw_mostly(SEATS, SEATS + 1), user = draw_mostly(USERS, USERS + 2);
    uint32_t page = draw_mostly(PAGES, PAGES + 2), pages[PAGES] = {0};
    uint64_t counts[PAGES] = {0};
    likes_seat *seat = &seats[number];
    likes_answer answers[MOST] = {{9, 9, 9}};
    likes_request requests[MOST];
    likes_found found = {0};
    uint32_t call = draw(14);
    begin("own");
    note(call);
    switch (call) {
    case 0:
        note(likes_seat_like(seat, user, page));
        break;
    case 1:
        note(likes_seat_look(seat, user, page, draw(100), answers));
        break;
    case 2:
        note(likes_seat_glance(seat, user, page, answers));
        break;
    case 3:
        note(likes_seat_last(seat, user, pages));
        break;
    case 4:
        note(likes_seat_lasts(seat, draw_mostly(2, 9), pages, draw(MOST)));
        break;
    case 5:
        note(likes_seat_run(seat, requests, draw_requests(requests, number), answers, 1 + draw(MOST)));
        break;
    case 6:
        note(likes_seat_take_found(seat, &found));
        break;
    case 7:
        note(draw(4) == 0 ? likes_seat_retire(seat) : likes_seat_turn(seat));
        break;
    case 8:
        note(likes_seat_come_back(seat));
        break;
    case 9:
        note(likes_seat_phase(seat));
        break;
    case 10:
        note(likes_driver_snapshot(driver, draw_mostly(2, PAGES + 2), counts, draw(PAGES)));
        break;
    case 11:
        note(draw(2) == 0 ? sort(pages, likes_driver_split_pages(driver, pages, PAGES))
                          : likes_driver_propose(driver, pages, draw_pages(pages)));
        break;
    default:
        note(likes_driver_turn(driver, draw_mostly(3, 4)));
    }
    for (uint32_t i = 0; i < MOST; i++)
        note_answer(&answers[i]);
    for (size_t i = 0; i < PAGES; i++) {
        note(counts[i]);
        note(pages[i]);
    }
    note_found(&found);
}

static void of_seats(void) {
    likes_driver driver = {0};
    likes_seat seats[SEATS + 1] = {{NULL}};
    likes_options options = options_of();
    uint64_t counts[PAGES] = {0};
    note(likes_open(&options, &driver));
    for (uint32_t n = 0; n <= SEATS; n++)
        note(likes_driver_take_seat(&driver, &seats[n]));
    for (uint32_t n = 0; n < CALLS; n++)
        call_own(&driver, seats);
    begin("close");
    note(likes_close(&driver, seats, SEATS, counts, PAGES));
    for (uint32_t page = 0; page < PAGES; page++)
        note(counts[page]);
    for (uint32_t n = 0; n <= SEATS; n++)
        likes_seat_free(&seats[n]);
    likes_driver_free(&driver);
}

int main(int argc, char **argv) {
    uint64_t seed = argc > 1 ? strtoull(argv[1], NULL, 10) : 1, rows = argc > 2 ? strtoull(argv[2], NULL, 10) : 1000;
    uint64_t shown = argc > 3 ? strtoull(argv[3], NULL, 10) : UINT64_MAX;
    for (uint64_t row = 0; row < rows; row++) {
        state = seed * 1000003 + row;
        sum = UINT64_C(14695981039346656037);
        is_shown = row == shown;
        if (row % 4 == 3)
            of_seats();
        else
            of_clients();
        if (shown == UINT64_MAX)
            printf("%llu %016llx\n", (unsigned long long)row, (unsigned long long)sum);
    }
    return 0;
}
