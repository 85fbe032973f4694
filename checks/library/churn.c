/* Threads that come and go, at services that come and go, with every kind of call: single calls, looks with deadlines,
 * rows and calls through seats that they hold, writers, counts, snapshots, proposals, and seats that leave and come
 * back. Each call is answered as it may be, no call waits for ever, and each total is what all threads were told. At
 * first, the program has all keys of threads for a while, and a thread calls a service while it ends, from a destructor
 * of its own.
 *
 * usage: churn SEED SECONDS
 *
 * If something is wrong, it prints a line and exits with status 1. A signal ends it 30 seconds after its time. */
#include "harness.h"

#include <limits.h>

enum { USERS = 60, PAGES = 4, THREADS = 6, CREWS = 3, STEPS = 150, HELD_STEPS = 30, ROW = 8, MS = 1000000 };

static likes_service *service;
static uint32_t seats;
static uint64_t liked[PAGES], calls;

typedef struct {
    uint32_t number, steps;
    uint64_t random;
    likes_writer *writer;
    pthread_t thread;
} worker;

static uint32_t draw(worker *it, uint32_t bound) {
    return (uint32_t)below(&it->random, bound);
}

/* Notes what a like was told. A seat may be gone, and one that is held may be between two phases. */
static void note_like(uint32_t status, uint32_t page, bool is_held) {
    if (status == LIKES_LIKED)
        __atomic_fetch_add(&liked[page], 1, __ATOMIC_SEQ_CST);
    else
        hold(status == LIKES_GONE || (is_held && status == LIKES_BETWEEN), "a like was refused");
}

static void note_look(uint32_t status, bool may_be_late) {
    bool is_answered = status == LIKES_SEEN || status == LIKES_GONE || status == LIKES_NO_ROOM;
    hold(is_answered || (may_be_late && status == LIKES_LATE), "a look was refused");
}

/* Takes found looks of the host's. */
static void take(uint32_t number) {
    likes_found found;
    while (likes_service_take_found(service, number, &found))
        hold(found.tag < ROW, "another look was found");
}

/* A row of all kinds, with users of a seat that is held. */
static void run(worker *it, uint32_t number, uint32_t user) {
    likes_request row[ROW];
    likes_answer answers[ROW];
    for (uint32_t i = 0; i < ROW; i++)
        row[i] = (likes_request){.tag = i, .user = user, .page = draw(it, PAGES), .op = draw(it, 3)};
    size_t done = likes_service_run(service, number, row, ROW, answers);
    for (size_t i = 0; i < done; i++)
        if (row[i].op == LIKES_LIKE)
            note_like(answers[i].status, row[i].page, false);
    hold(done == ROW || answers[done].status == LIKES_NO_ROOM, "a row stopped early");
}

/* A call through a seat that is held. */
static void call_held(worker *it, likes_seat *seat, uint32_t number) {
    uint32_t user = number + seats * draw(it, USERS / seats), page = draw(it, PAGES), last;
    likes_answer answer;
    switch (draw(it, 8)) {
    case 0:
        note_like(likes_seat_like(seat, user, page), page, true);
        break;
    case 1:
        likes_seat_look(seat, user, page, 5, &answer);
        break;
    case 2:
        likes_seat_glance(seat, user, page, &answer);
        break;
    case 3:
        likes_seat_turn(seat);
        break;
    case 4:
        take(number);
        break;
    case 5:
        likes_service_tick(service);
        break;
    case 6:
        hold(likes_seat_last(seat, user, &last) == LIKES_OK, "there is no last like");
        likes_service_drive(service);
        break;
    default:
        run(it, number, user);
    }
}

static void hold_seat(worker *it) {
    uint32_t number = draw(it, seats);
    likes_seat *seat = likes_service_lock(service, number);
    hold(seat != NULL, "no seat was locked");
    for (uint32_t steps = draw(it, HELD_STEPS); steps > 0; steps--)
        call_held(it, seat, number);
    take(number);
    likes_service_unlock(service, number);
}

/* What one thread of a crew does beside. */
static void care(worker *it) {
    uint64_t counts[PAGES];
    uint32_t lasts[USERS], status, page = draw(it, PAGES), number = draw(it, seats);
    switch (draw(it, 4)) {
    case 0:
        hold(likes_service_counts(service, counts, PAGES) == LIKES_COUNTED, "there are no counts");
        break;
    case 1:
        status = likes_service_snapshot(service, counts, PAGES, lasts, USERS);
        hold(status == LIKES_COUNTED || status == LIKES_NO_MOMENT, "there is no snapshot");
        break;
    case 2:
        hold(likes_service_retire_seat(service, number) == LIKES_OK, "a seat didn't leave");
        sleep_for(draw(it, MS));
        hold(likes_service_bring_back_seat(service, number) == LIKES_OK, "a seat didn't come back");
        break;
    default:
        hold(likes_service_propose(service, &page, draw(it, 2)) == LIKES_OK, "a proposal was refused");
    }
}

/* Likes for a seat that has left stay kept until their row is full. */
static void write_some(worker *it, uint32_t user, uint32_t page) {
    for (int times = 0; times < 40; times++) {
        uint32_t status = likes_writer_like(it->writer, user, page);
        note_like(status == LIKES_OK ? (uint32_t)LIKES_LIKED : status, page, false);
    }
}

static void call(worker *it) {
    uint32_t user = draw(it, USERS), page = draw(it, PAGES), last;
    likes_answer answer;
    switch (draw(it, it->number == 1 ? 10 : 9)) {
    case 0:
        note_like(likes_service_like(service, user, page), page, false);
        break;
    case 1:
        note_look(likes_service_look(service, user, page, &answer), false);
        break;
    case 2:
        note_look(likes_service_look_within(service, user, page, draw(it, 300), &answer), true);
        break;
    case 3:
        likes_service_glance(service, user, page, &answer);
        break;
    case 4:
        hold_seat(it);
        break;
    case 5:
        hold(likes_service_last(service, user, &last) == LIKES_OK, "there is no last like");
        break;
    case 6:
        if (it->writer != NULL)
            write_some(it, user, page);
        break;
    case 7:
        if (it->writer != NULL)
            note_look(likes_writer_look(it->writer, user, page, &answer), false);
        break;
    case 8:
        if (draw(it, 4) == 0)
            sleep_for(draw(it, 3 * MS));
        break;
    default:
        care(it);
    }
}

static void *work(void *at) {
    worker *it = (worker *)at;
    uint32_t status;
    if (it->number % 3 == 0)
        hold(likes_writer_open(service, &it->writer) == LIKES_OK, "no writer was opened");
    for (uint32_t steps = 0; steps < it->steps; steps++)
        call(it);
    __atomic_fetch_add(&calls, it->steps, __ATOMIC_SEQ_CST);
    while ((status = likes_writer_close(it->writer)) == LIKES_GONE)
        sleep_for(MS / 10);
    hold(status == LIKES_OK, "a writer was not closed");
    return NULL;
}

static void play_crew(uint64_t *random) {
    worker workers[THREADS];
    for (uint32_t i = 0; i < THREADS; i++) {
        workers[i] = (worker){.number = i, .steps = (uint32_t)below(random, STEPS), .random = drawn(random)};
        start_thread(&workers[i].thread, work, &workers[i]);
    }
    for (uint32_t i = 0; i < THREADS; i++)
        pthread_join(workers[i].thread, NULL);
    if (below(random, 3) == 0)
        sleep_for(below(random, 10 * MS));
}

/* A service for a while, with several crews. */
static void play(uint64_t *random) {
    static const uint32_t all_seats[] = {1, 2, 3, 5}, rooms[] = {1, 2, 8}, periods[] = {1, 100, 1000, 5000};
    static const uint32_t marks[] = {0};
    static const uint64_t none[PAGES];
    uint64_t totals[PAGES];
    likes_statistics told;
    seats = all_seats[below(random, 4)];
    likes_options options = {.seats = seats, .users = USERS, .room = rooms[below(random, 3)]};
    size_t marks_len = below(random, 4) > 0;
    uint32_t period = periods[below(random, 4)];
    memset(liked, 0, sizeof liked);
    hold(open_shared(options, none, PAGES, marks, marks_len, NULL, 0, period, &service) == LIKES_OK, "not opened");
    for (int crews = 0; crews < CREWS; crews++)
        play_crew(random);
    if (below(random, 2) == 0)
        hold(likes_service_retire(service) == LIKES_OK, "the seats didn't leave");
    hold(likes_service_stop(service, totals, PAGES) == LIKES_OK, "the service was not stopped");
    for (uint32_t page = 0; page < PAGES; page++)
        hold(totals[page] == liked[page], "a total is wrong");
    hold(likes_service_statistics(service, &told) == LIKES_OK, "there are no statistics");
    hold(told.likes == totals[0] + totals[1] + totals[2] + totals[3], "not all likes are told");
    hold(likes_service_close(service) == LIKES_OK, "the service was not closed");
    service = NULL;
}

/* A destructor calls the service again, after that of the library was called, and another thread begins to call it
 * meanwhile: neither has what the other has. */
static bool is_held, is_called;

static void hold_late(void *at) {
    (void)at;
    hold(likes_service_lock(service, 0) != NULL, "a destructor holds no seat");
    set(&is_held);
    while (!is_set(&is_called))
        sched_yield();
    likes_service_unlock(service, 0);
}

static void *call_and_end(void *key) {
    IS(likes_service_like(service, 0, 0), LIKES_LIKED);
    hold(pthread_setspecific(*(pthread_key_t *)key, key) == 0, "a thread has no value of a key");
    return NULL;
}

static void *call_meanwhile(void *at) {
    while (!is_set(&is_held))
        sched_yield();
    IS(likes_service_like(service, 1, 0), LIKES_LIKED);
    set(&is_called);
    return at;
}

static void end_late(void) {
    static const uint64_t none[PAGES];
    uint64_t totals[PAGES];
    likes_options options = {.seats = 2, .users = USERS};
    pthread_key_t key;
    pthread_t threads[2];
    hold(open_shared(options, none, PAGES, NULL, 0, NULL, 0, 1000, &service) == LIKES_OK, "not opened");
    /* Destructors are called in the order of their keys: after this call, the library has its own. */
    IS(likes_service_like(service, 1, 0), LIKES_LIKED);
    hold(pthread_key_create(&key, hold_late) == 0, "there is no key");
    start_thread(&threads[0], call_and_end, &key);
    start_thread(&threads[1], call_meanwhile, NULL);
    for (int i = 0; i < 2; i++)
        pthread_join(threads[i], NULL);
    pthread_key_delete(key);
    IS(likes_service_stop(service, totals, PAGES), LIKES_OK);
    IS(totals[0], 3);
    IS(likes_service_close(service), LIKES_OK);
    service = NULL;
}

/* Calls are refused as long as the program has all keys. */
static void take_keys(void) {
    static const uint64_t none[PAGES];
    static pthread_key_t keys[PTHREAD_KEYS_MAX];
    int taken = 0;
    likes_options options = {.seats = 1, .users = USERS};
    hold(open_shared(options, none, PAGES, NULL, 0, NULL, 0, 1000, &service) == LIKES_OK, "not opened");
    while (taken < PTHREAD_KEYS_MAX && pthread_key_create(&keys[taken], NULL) == 0)
        taken++;
    IS(likes_service_like(service, 1, 0), LIKES_NO_MEMORY);
    while (taken > 0)
        pthread_key_delete(keys[--taken]);
    IS(likes_service_like(service, 1, 0), LIKES_LIKED);
    IS(likes_service_close(service), LIKES_OK);
    service = NULL;
}

int main(int count, char **words) {
    if (count != 3) {
        fputs("usage: churn SEED SECONDS\n", stderr);
        return 2;
    }
    uint64_t random = strtoull(words[1], NULL, 10), seconds = strtoull(words[2], NULL, 10), services = 0;
    uint64_t end = clock_now() + seconds * UINT64_C(1000000000);
    alarm((unsigned)(30 + seconds));
    take_keys();
    end_late();
    for (; clock_now() < end; services++)
        play(&random);
    printf("totals held, of %llu services with %llu calls\n", (unsigned long long)services, (unsigned long long)calls);
    return 0;
}
