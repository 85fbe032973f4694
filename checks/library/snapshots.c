/* The calls of likes_service.h: snapshots of one moment with last likes, looks with a deadline, statistics, the phase
 * and split pages.
 *
 * If a call is answered otherwise, it prints a line and exits with status 1. After 60 seconds a signal ends it. */
#include "harness.h"

enum { SEATS = 3, USERS = 6, PAGES = 2 * USERS, SNAPSHOTS = 200, MS = 1000000 };

static likes_service *service;
static bool is_over, is_held;

/* A service in which page 0 is split in every split phase; and others, where hot pages are found. */
static void start(uint32_t room, uint32_t period, uint32_t hot) {
    static const uint64_t counts[PAGES];
    static const uint32_t marks[] = {0};
    likes_options options = {.seats = SEATS, .users = USERS, .room = room, .hot = hot};
    IS(open_shared(options, counts, PAGES, marks, 1, NULL, 0, period, &service), LIKES_OK);
    is_over = false;
}

static void stop(uint64_t *totals) {
    IS(likes_service_stop(service, totals, PAGES), LIKES_OK);
    IS(likes_service_fault(service), LIKES_STOPPED);
    likes_service_close(service);
    service = NULL;
}

/* A user likes a page, then another, then the first again, and so on: by single calls, or by rows. */
typedef struct {
    uint32_t user;
    uint64_t likes;
    pthread_t thread;
} liker;

static void like_row(liker *it) {
    likes_request row[16];
    likes_answer answers[16];
    memset(row, 0, sizeof row);
    for (uint32_t i = 0; i < 16; i++) {
        row[i].user = it->user;
        row[i].page = 2 * it->user + (uint32_t)(it->likes++ % 2);
    }
    IS(likes_service_lock(service, it->user % SEATS) != NULL, true);
    IS(likes_service_run(service, it->user % SEATS, row, 16, answers), 16);
    likes_service_unlock(service, it->user % SEATS);
}

static void *like_by_turns(void *at) {
    liker *it = (liker *)at;
    while (!is_set(&is_over)) {
        if (it->user < SEATS)
            IS(likes_service_like(service, it->user, 2 * it->user + (uint32_t)(it->likes++ % 2)), LIKES_LIKED);
        else
            like_row(it);
        likes_service_tick(service);
    }
    return NULL;
}

/* The last like that goes with the counts of a user's two pages. */
static uint32_t last_of(uint32_t user, const uint64_t *counts) {
    uint64_t first = counts[2 * user], second = counts[2 * user + 1];
    IS(first == second || first == second + 1, true);
    return first == 0 ? LIKES_NO_PAGE : first == second ? 2 * user + 1 : 2 * user;
}

/* On a busy machine a thread that holds its seat may stand still for a tenth of a second: then there is no moment, and
 * the snapshot is taken again. */
static void take_snapshot(uint64_t *counts, uint32_t *lasts) {
    uint32_t status = LIKES_NO_MOMENT;
    for (int tries = 0; status == LIKES_NO_MOMENT && tries < 50; tries++)
        status = likes_service_snapshot(service, counts, PAGES, lasts, USERS);
    IS(status, LIKES_COUNTED);
}

/* Counts and last likes are of one moment, while threads go on. The statistics have all likes at the end. */
static void moments(uint32_t period) {
    static liker likers[USERS];
    uint64_t counts[PAGES], likes = 0;
    uint32_t lasts[USERS], split[LIKES_MAX_SPLIT];
    likes_statistics told;
    start(64, period, 512);
    for (uint32_t i = 0; i < USERS; i++) {
        likers[i].user = i;
        likers[i].likes = 0;
        start_thread(&likers[i].thread, like_by_turns, &likers[i]);
    }
    for (uint32_t n = 0; n < SNAPSHOTS; n++) {
        take_snapshot(counts, lasts);
        for (uint32_t user = 0; user < USERS; user++)
            IS(lasts[user], last_of(user, counts));
        IS(likes_service_split_pages(service, split, LIKES_MAX_SPLIT) >= 1, true);
        sleep_for(n % 4 * 200000);
    }
    set(&is_over);
    for (uint32_t i = 0; i < USERS; i++) {
        pthread_join(likers[i].thread, NULL);
        likes += likers[i].likes;
    }
    IS(likes_service_statistics(service, &told), LIKES_OK);
    IS(told.likes, likes);
    IS(told.looks + told.waits + told.late, 0);
    IS(told.phases >= SNAPSHOTS, true);
    IS(likes_service_snapshot(service, counts, PAGES, lasts, USERS - 1), LIKES_WRONG_LENGTH);
    IS(likes_service_snapshot(service, counts, PAGES - 1, lasts, USERS), LIKES_WRONG_LENGTH);
    IS(likes_service_retire(service), LIKES_OK);
    IS(likes_service_snapshot(service, counts, PAGES, lasts, USERS), LIKES_COUNTED);
    for (uint32_t user = 0; user < USERS; user++)
        IS(lasts[user], last_of(user, counts));
    stop(counts);
    for (uint32_t page = 0; page < PAGES; page++)
        likes -= counts[page];
    IS(likes, 0);
}

/* Goes on to a split phase that has just begun. */
static uint64_t go_to_split(void) {
    uint64_t before = likes_service_phase(service), phase;
    do {
        likes_service_last(service, 0, (uint32_t[]){0});
        IS(likes_service_like(service, 0, 2), LIKES_LIKED);
        sleep_for(50000);
        phase = likes_service_phase(service);
    } while (phase <= before || phase % 2 == 0);
    return phase;
}

/* A look that is late: it takes its time, and no more than that by far. */
static void be_late(uint32_t user, uint32_t page) {
    likes_answer answer = {.count = 7};
    uint64_t began = clock_now();
    IS(likes_service_look_within(service, user, page, 2000, &answer), LIKES_LATE);
    IS(answer.status, LIKES_LATE);
    IS(answer.count, 0);
    uint64_t took = clock_now() - began;
    IS(took >= 2 * MS && took < 400 * MS, true);
}

/* A look that is late, or was made while the thread that holds its seat waited for a phase. */
static void *look_at_lent(void *at) {
    likes_answer answer;
    uint64_t began = clock_now();
    uint32_t status = likes_service_look_within(service, *(uint32_t *)at, 1, 2000, &answer);
    IS(status == LIKES_LATE || status == LIKES_SEEN, true);
    IS(clock_now() - began < 400 * MS, true);
    return NULL;
}

/* Looks at a page that is split for long. Three are late; by the fourth, those that wait take half of the room. */
static void late_looks(void) {
    likes_answer answer;
    likes_statistics told;
    likes_found found;
    uint64_t totals[PAGES];
    start(8, 1000000, 0);
    uint64_t phase = go_to_split();
    IS(likes_service_look_within(service, 0, 2, 1000000, &answer), LIKES_SEEN);
    for (int n = 0; n < 3; n++)
        be_late(0, 0);
    IS(likes_service_like(service, 0, 0), LIKES_LIKED);
    IS(likes_service_phase(service), phase);
    IS(likes_service_look_within(service, 0, 0, 5000000, &answer), LIKES_SEEN);
    IS(answer.count, 1);
    IS(answer.last, 0);
    IS(likes_service_statistics(service, &told), LIKES_OK);
    IS(told.looks, 2);
    IS(told.waits, 1);
    IS(told.late, 3);
    IS(told.longest_wait, told.wait_time);
    IS(told.wait_time < 900 * (uint64_t)MS, true);
    likes_service_lock(service, 0);
    IS(likes_service_take_found(service, 0, &found), false);
    likes_service_unlock(service, 0);
    stop(totals);
    IS(totals[0], 1);
}

/* Found looks of rows that nobody takes fill the room for others of rows, and for no look of the service. */
static void full_room(void) {
    likes_request row[3];
    likes_answer answers[3];
    uint64_t totals[PAGES];
    start(4, 1000, 512);
    for (uint64_t tag = 0; tag < 3; tag++)
        row[tag] = (likes_request){.tag = tag, .op = LIKES_LOOK};
    size_t done = 3;
    while (done == 3) {
        IS(likes_service_lock(service, 0) != NULL, true);
        done = likes_service_run(service, 0, row, 3, answers);
        likes_service_unlock(service, 0);
    }
    IS(answers[done].status, LIKES_NO_ROOM);
    IS(likes_service_look(service, 0, 0, answers), LIKES_SEEN);
    IS(likes_service_look(service, USERS, 0, answers), LIKES_UNKNOWN_USER);
    IS(likes_service_look(service, 0, PAGES, answers), LIKES_UNKNOWN_PAGE);
    IS(likes_service_retire_seat(service, 0), LIKES_OK);
    IS(likes_service_look(service, 0, 0, answers), LIKES_GONE);
    IS(likes_service_look(service, USERS, 0, answers), LIKES_GONE);
    IS(likes_service_bring_back_seat(service, 0), LIKES_OK);
    stop(totals);
}

/* A thread that holds a seat, in no call. */
static void *hold_seat(void *at) {
    IS(likes_service_lock(service, *(uint32_t *)at) != NULL, true);
    set(&is_held);
    while (!is_set(&is_over))
        sleep_for(MS);
    likes_service_unlock(service, *(uint32_t *)at);
    return NULL;
}

/* Looks at a seat that is held are late, and so are others while a phase is ending. A snapshot with last likes has no
 * moment at once, but counts do once the phase has ended. */
static void held_seat(void) {
    pthread_t thread;
    uint32_t held = 1, lasts[USERS];
    uint64_t totals[PAGES];
    likes_answer answer;
    start(8, 1000, 512);
    is_held = false;
    start_thread(&thread, hold_seat, &held);
    while (!is_set(&is_held))
        sleep_for(MS);
    /* Until a phase is ending, which waits for the seat. */
    while (likes_service_look_within(service, 0, 2, 1000, &answer) != LIKES_LATE)
        sleep_for(MS);
    be_late(1, 2);
    be_late(0, 0);
    be_late(0, 2);
    set(&is_over);
    pthread_join(thread, NULL);
    IS(likes_service_look_within(service, 0, 0, 5000000, &answer), LIKES_SEEN);
    IS(likes_service_look_within(service, 1, 2, 5000000, &answer), LIKES_SEEN);
    IS(likes_service_snapshot(service, totals, PAGES, lasts, USERS), LIKES_COUNTED);
    for (uint32_t user = 0; user < USERS; user++)
        IS(lasts[user], LIKES_NO_PAGE);
    stop(totals);
}

/* A seat that is held in no call: there is no moment after a tenth of a second, while the thread still holds it. */
static void held_for_long(void) {
    pthread_t thread;
    uint32_t held = 1, lasts[USERS];
    uint64_t totals[PAGES];
    start(8, 1000, 512);
    is_held = false;
    start_thread(&thread, hold_seat, &held);
    while (!is_set(&is_held))
        sleep_for(MS);
    uint64_t began = clock_now();
    IS(likes_service_snapshot(service, totals, PAGES, lasts, USERS), LIKES_NO_MOMENT);
    IS(clock_now() - began >= 100 * MS, true);
    set(&is_over);
    pthread_join(thread, NULL);
    IS(likes_service_snapshot(service, totals, PAGES, lasts, USERS), LIKES_COUNTED);
    stop(totals);
}

/* Holds a seat until its joined phase has ended, and for some time more, in no call. How long it held it. */
typedef struct {
    uint32_t number;
    uint64_t begins, lasts, took;
} seat_holder;

static void *hold_ended(void *at) {
    seat_holder *it = (seat_holder *)at;
    sleep_for(it->begins);
    uint64_t began = clock_now();
    likes_seat *seat = likes_service_lock(service, it->number);
    set(&is_held);
    while (likes_seat_turn(seat) != LIKES_BETWEEN || likes_seat_phase(seat) % 2 == 1)
        sleep_for(MS / 5);
    sleep_for(it->lasts);
    likes_service_unlock(service, it->number);
    it->took = clock_now() - began;
    return NULL;
}

/* Two seats are held, one after the other, for less than a tenth of a second each, and for more than that together: a
 * snapshot waits for both. No phase ends but for it. */
static void held_by_turns(void) {
    seat_holder holders[2] = {{0, 0, 85 * MS, 0}, {1, 75 * MS, 40 * MS, 0}};
    pthread_t threads[2];
    uint32_t lasts[USERS];
    uint64_t totals[PAGES];
    start(8, 1000000, 512);
    is_held = false;
    start_thread(&threads[0], hold_ended, &holders[0]);
    while (!is_set(&is_held))
        sleep_for(MS / 5);
    start_thread(&threads[1], hold_ended, &holders[1]);
    uint32_t status = likes_service_snapshot(service, totals, PAGES, lasts, USERS);
    for (int i = 0; i < 2; i++)
        pthread_join(threads[i], NULL);
    if (holders[0].took < 100 * MS && holders[1].took < 100 * MS)
        IS(status, LIKES_COUNTED);
    stop(totals);
}

/* Likes by which phases go on. */
static void *like_on(void *at) {
    while (!is_set(&is_over))
        IS(likes_service_like(service, 1, 0), LIKES_LIKED);
    return at;
}

/* Whether phases go on while last likes are written: about one in a millisecond of the thread's processor time, where they
 * stood still for the time that a seat's took. */
static bool phases_go_on(uint32_t *lasts, size_t users) {
    uint64_t began = clock_of(CLOCK_THREAD_CPUTIME_ID), phase = likes_service_phase(service);
    IS(likes_service_lasts(service, lasts, users), LIKES_OK);
    uint64_t phases = likes_service_phase(service) - phase, took = clock_of(CLOCK_THREAD_CPUTIME_ID) - began;
    return phases >= 8 + took / MS / 8;
}

/* The last likes of many users, which take long to write. On a busy machine, phases may last longer too. */
static void many_lasts(void) {
    enum { MANY = 16000000 };
    static const uint64_t counts[1];
    static const uint32_t marks[] = {0};
    likes_options options = {.seats = 2, .users = MANY, .room = 8, .hot = 512};
    uint32_t *lasts = malloc(MANY * sizeof *lasts);
    uint64_t totals[1];
    pthread_t thread;
    int tries = 8;
    hold(lasts != NULL, "there is no memory");
    IS(open_shared(options, counts, 1, marks, 1, NULL, 0, 1000, &service), LIKES_OK);
    is_over = false;
    start_thread(&thread, like_on, NULL);
    while (tries > 0 && !phases_go_on(lasts, MANY))
        tries--;
    hold(tries > 0, "phases stood still while last likes were written");
    set(&is_over);
    pthread_join(thread, NULL);
    free(lasts);
    IS(likes_service_stop(service, totals, 1), LIKES_OK);
    likes_service_close(service);
    service = NULL;
}

/* A thread that waits for a phase in a row, and lends its seat meanwhile. Then it holds the seat on, and calls it. */
static void *lend_seat(void *at) {
    likes_request row = {.user = 2, .page = 1, .op = LIKES_LIKE};
    likes_answer answer;
    likes_seat *seat = likes_service_lock(service, *(uint32_t *)at);
    set(&is_held);
    while (likes_service_phase(service) < 2)
        IS(likes_service_run(service, *(uint32_t *)at, &row, 1, &answer), 1);
    while (!is_set(&is_over)) {
        likes_seat_turn(seat);
        sleep_for(MS / 5);
    }
    likes_service_unlock(service, *(uint32_t *)at);
    return NULL;
}

/* A look that waits for a seat which is lent is late in time, also if the seat comes back and goes on being held. */
static void lent_seat(void) {
    pthread_t lender, holder;
    uint32_t lent = 2, held = 1;
    uint64_t totals[PAGES];
    start(8, 1000, 512);
    is_held = false;
    IS(likes_service_lock(service, held) != NULL, true);
    start_thread(&lender, lend_seat, &lent);
    while (!is_set(&is_held))
        sleep_for(MS);
    sleep_for(50 * MS); /* until a phase is ending, which waits for this thread's seat */
    start_thread(&holder, look_at_lent, &lent);
    sleep_for(MS / 2);
    likes_service_unlock(service, held);
    pthread_join(holder, NULL);
    set(&is_over);
    pthread_join(lender, NULL);
    stop(totals);
}

/* Many threads look with deadlines that many miss: no answer goes astray. */
static void *look_often(void *at) {
    liker *it = (liker *)at;
    for (uint32_t n = 0; n < 2000; n++) {
        likes_answer answer;
        IS(likes_service_like(service, it->user, 0), LIKES_LIKED);
        it->likes++;
        uint32_t status = likes_service_look_within(service, it->user, 0, n % 7 * 40, &answer);
        if (status == LIKES_LATE)
            continue;
        IS(status, LIKES_SEEN);
        IS(answer.count >= it->likes, true);
        IS(answer.last, 0);
    }
    return NULL;
}

static void deadlines(uint32_t room, uint32_t period) {
    static liker likers[USERS];
    likes_statistics told;
    uint64_t totals[PAGES];
    start(room, period, 512);
    for (uint32_t i = 0; i < USERS; i++) {
        likers[i].user = i;
        likers[i].likes = 0;
        start_thread(&likers[i].thread, look_often, &likers[i]);
    }
    for (uint32_t i = 0; i < USERS; i++)
        pthread_join(likers[i].thread, NULL);
    IS(likes_service_statistics(service, &told), LIKES_OK);
    IS(told.likes, USERS * 2000);
    IS(told.looks + told.late, USERS * 2000);
    IS(told.waits <= told.looks, true);
    stop(totals);
    IS(totals[0], USERS * 2000);
}

/* Openings that are refused, and services that are closed in any state. */
static void openings(void) {
    static const uint64_t counts[] = {5};
    likes_options options = {.seats = 1, .users = 1, .room = 1};
    IS(open_shared(options, counts, 1, NULL, 0, NULL, 0, LIKES_MAX_PERIOD_US + 1, &service), LIKES_WRONG_PERIOD);
    IS(service == NULL, true);
    IS(open_shared(options, NULL, 0, NULL, 0, NULL, 0, 1000, &service), LIKES_WRONG_PAGES);
    IS(service == NULL, true);
    likes_service_close(NULL);
    IS(open_shared(options, counts, 1, NULL, 0, NULL, 0, 1000, &service), LIKES_OK);
    likes_service_close(service);
    service = NULL;
    IS(open_shared(options, counts, 1, NULL, 0, NULL, 0, 1000, &service), LIKES_OK);
    IS(likes_service_like(service, 0, 0), LIKES_LIKED);
    IS(likes_service_retire(service), LIKES_OK);
    likes_service_close(service);
    service = NULL;
}

int main(void) {
    alarm(60);
    openings();
    moments(1);
    moments(1000);
    late_looks();
    full_room();
    held_seat();
    held_for_long();
    held_by_turns();
    lent_seat();
    many_lasts();
    deadlines(1, 50);
    deadlines(16, 500);
    puts("all calls answered right");
    return 0;
}
