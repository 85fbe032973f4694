/* Writers: a row is handed over when it has 64 likes, at the first call after a period, by flush, look and close; a look
 * shows all that its writer was told of its user and its page; likes for a seat that has left stay kept, until it is
 * back or they are dropped; a service isn't ended while a writer is open; likes of a user are counted in their order;
 * totals and last likes of many threads; wrong uses; and no memory.
 *
 * usage: writers SEED SECONDS
 *
 * If something is wrong, it prints a line and exits with status 1. After 60 seconds, and those asked for, a signal ends
 * it. Where the machine is busy, a row may be late; that is printed, and no failure unless half of them are. */
#include "harness.h"

enum { SEATS = 3, USERS = 30, PAGES = 3, ROW = 64, THREADS = 6, TIMES = 20, MS = 1000000 };

static likes_service *service;
static bool is_over;
static uint64_t until;

/* The linker calls these in place of calloc and aligned_alloc: the call of this number from now on is refused, if it
 * isn't 0. */
static int refused;

static bool is_refused(void) {
    if (refused == 1)
        errno = ENOMEM;
    return refused > 0 && --refused == 0;
}

void *__real_calloc(size_t number, size_t size);
void *__wrap_calloc(size_t number, size_t size);
void *__real_aligned_alloc(size_t alignment, size_t size);
void *__wrap_aligned_alloc(size_t alignment, size_t size);

void *__wrap_calloc(size_t number, size_t size) {
    return is_refused() ? NULL : __real_calloc(number, size);
}

void *__wrap_aligned_alloc(size_t alignment, size_t size) {
    return is_refused() ? NULL : __real_aligned_alloc(alignment, size);
}

static uint32_t open_service(uint32_t seats, uint32_t period) {
    static const uint64_t counts[PAGES];
    static const uint32_t marks[] = {0};
    likes_options options = {.seats = seats, .users = USERS, .room = 8, .hot = 512};
    is_over = false;
    return open_shared(options, counts, PAGES, marks, 1, NULL, 0, period, &service);
}

static likes_writer *start(uint32_t seats, uint32_t period) {
    likes_writer *writer = NULL;
    IS(open_service(seats, period), LIKES_OK);
    IS(likes_writer_open(service, &writer), LIKES_OK);
    return writer;
}

/* Stops the service, in which there must be so many likes. */
static void stop(uint64_t likes) {
    uint64_t totals[PAGES];
    IS(likes_service_stop(service, totals, PAGES), LIKES_OK);
    IS(totals[0] + totals[1] + totals[2], likes);
    IS(likes_service_close(service), LIKES_OK);
    service = NULL;
}

/* How many likes are counted. */
static uint64_t counted(void) {
    likes_statistics told;
    IS(likes_service_statistics(service, &told), LIKES_OK);
    return told.likes;
}

static void like(likes_writer *writer, uint32_t user, uint32_t page, uint32_t times) {
    for (uint32_t i = 0; i < times; i++)
        IS(likes_writer_like(writer, user, page), LIKES_OK);
}

/* A row is handed over when it has 64 likes, and no other row is. */
static void full_rows(uint32_t seats) {
    likes_writer *writer = start(seats, 10000000);
    uint64_t counts[PAGES];
    for (uint64_t rows = 0; rows < 10; rows++) {
        like(writer, 0, 1, ROW - 1);
        IS(counted(), rows * ROW);
        like(writer, 0, 1, 1);
        IS(counted(), (rows + 1) * ROW);
        IS(likes_service_counts(service, counts, PAGES), LIKES_COUNTED);
        IS(counts[1], (rows + 1) * ROW);
    }
    IS(likes_writer_close(writer), LIKES_OK);
    stop(10 * ROW);
}

/* By flush, look and close. A look is of its user's row, where no other has likes of the page. */
static void on_request(void) {
    likes_writer *writer = start(SEATS, 10000000);
    likes_answer answer;
    uint32_t last;
    like(writer, 0, 1, 3);
    like(writer, 1, 2, 4);
    IS(counted(), 0);
    IS(likes_service_last(service, 0, &last), LIKES_OK);
    IS(last, LIKES_NO_PAGE);
    IS(likes_writer_look(writer, 0, 1, &answer), LIKES_SEEN);
    IS(answer.count, 3);
    IS(answer.last, 1);
    IS(counted(), 3);
    IS(likes_writer_flush(writer), LIKES_OK);
    IS(counted(), 7);
    IS(likes_writer_flush(writer), LIKES_OK);
    IS(likes_writer_look(writer, 1, 2, &answer), LIKES_SEEN);
    IS(answer.count, 4);
    like(writer, 2, 0, 5);
    IS(likes_writer_close(writer), LIKES_OK);
    IS(counted(), 12);
    stop(12);
}

/* A look hands over each row that has likes of its page, wherever they stand in it, and no other but its user's. */
static void of_page(uint32_t seats) {
    likes_writer *writer = start(seats, 10000000);
    likes_answer answer;
    uint64_t likes = 0;
    for (uint32_t place = 0; place < ROW - 1; place++) {
        /* Users 0 and 1 have a seat each, where there are several, and so has user 2. */
        for (uint32_t i = 0; i < ROW - 1; i++)
            like(writer, 0, i == place ? 1 : 2, 1);
        like(writer, 2, 0, 1);
        IS(counted(), likes);
        IS(likes_writer_look(writer, 1, 1, &answer), LIKES_SEEN);
        IS(answer.count, place + 1);
        IS(answer.last, LIKES_NO_PAGE);
        likes += ROW - 1;
        IS(counted(), likes);
        IS(likes_writer_look(writer, 1, 2, &answer), LIKES_SEEN);
        IS(answer.count, (place + 1) * (ROW - 2));
        IS(counted(), likes);
        IS(likes_writer_look(writer, 2, PAGES, &answer), LIKES_UNKNOWN_PAGE);
        IS(counted(), ++likes);
    }
    like(writer, 0, 1, 1);
    IS(likes_writer_look(writer, USERS, 1, &answer), LIKES_UNKNOWN_USER);
    IS(counted(), likes);
    IS(likes_writer_close(writer), LIKES_OK);
    stop(likes + 1);
}

/* Each like is shown by the next look of its page, by whichever user, and of its user. */
static void said_and_seen(uint64_t random, uint32_t seats) {
    likes_writer *writer = start(seats, 10000000);
    uint64_t counts[PAGES] = {0}, likes = 0;
    uint32_t last[USERS];
    likes_answer answer;
    memset(last, 0xff, sizeof last);
    for (int times = 0; times < 2000; times++) {
        uint32_t user = (uint32_t)below(&random, USERS), page = 1 + (uint32_t)below(&random, PAGES - 1);
        if (below(&random, 8) > 0) {
            like(writer, user, page, 1);
            last[user] = page;
            counts[page]++;
            likes++;
        } else {
            IS(likes_writer_look(writer, user, page, &answer), LIKES_SEEN);
            IS(answer.count, counts[page]);
            IS(answer.last, last[user]);
        }
    }
    IS(likes_writer_close(writer), LIKES_OK);
    stop(likes);
}

/* Calls that keep the service from its rest. */
static void *call_on(void *at) {
    while (!is_set(&is_over)) {
        likes_answer answer;
        IS(likes_service_glance(service, 2, 1, &answer), LIKES_SEEN);
        sleep_for(100000);
    }
    return at;
}

/* A like is counted by the first call after a period, also where the service rests, and where it isn't split. */
static void after_period(uint32_t period, bool rests) {
    likes_writer *writer = start(SEATS, period);
    pthread_t thread;
    uint64_t likes = 0, late = 0;
    if (!rests)
        start_thread(&thread, call_on, NULL);
    for (int times = 0; times < TIMES; times++) {
        likes_answer answer;
        if (times % 4 == 0)
            sleep_for(5 * UINT64_C(1000) * period);
        like(writer, 0, 1, 1);
        sleep_for(UINT64_C(1000) * period + 200000);
        likes++;
        if (times % 2 == 0)
            like(writer, 1, 1, 1);
        else
            IS(likes_writer_look(writer, 1, 1, &answer), LIKES_SEEN);
        likes += times % 2 == 0;
        uint32_t last;
        IS(likes_service_last(service, 0, &last), LIKES_OK);
        late += last != 1 || counted() + 1 < likes;
        IS(likes_writer_flush(writer), LIKES_OK);
    }
    set(&is_over);
    if (!rests)
        pthread_join(thread, NULL);
    if (late > 0)
        printf("period %u: %llu rows were late; ", period, (unsigned long long)late);
    IS(late < TIMES / 2, true);
    IS(likes_writer_close(writer), LIKES_OK);
    stop(likes);
}

/* A like that was kept before a rest is counted by the first call after it, however soon that comes. Pulses are 100 ms
 * apart, and a service in which nothing is split rests within some milliseconds. */
static void after_rest(void) {
    static const uint64_t none[PAGES];
    likes_options options = {.seats = SEATS, .users = USERS, .room = 8, .hot = 512};
    likes_writer *writer = NULL;
    uint32_t last;
    IS(open_shared(options, none, PAGES, NULL, 0, NULL, 0, 300000, &service), LIKES_OK);
    IS(likes_writer_open(service, &writer), LIKES_OK);
    for (uint32_t page = 0; page < PAGES; page++) {
        like(writer, 0, page, 1);
        sleep_for(350 * MS);
        for (int times = 0; times < 10; times++) {
            IS(likes_service_like(service, 1, 0), LIKES_LIKED);
            sleep_for(MS);
        }
        like(writer, 2, 0, 1);
        IS(likes_service_last(service, 0, &last), LIKES_OK);
        IS(last, page);
        IS(likes_writer_flush(writer), LIKES_OK);
    }
    IS(likes_writer_close(writer), LIKES_OK);
    stop(12 * PAGES);
}

/* Likes for a seat that has left stay kept. */
static void gone(void) {
    likes_writer *writer = start(SEATS, 10000000);
    likes_answer answer;
    like(writer, 1, 1, 5);
    like(writer, 0, 2, 1);
    IS(likes_service_retire_seat(service, 1), LIKES_OK);
    IS(likes_writer_flush(writer), LIKES_GONE);
    IS(counted(), 1);
    IS(likes_writer_look(writer, 1, 1, &answer), LIKES_GONE);
    IS(answer.status, LIKES_GONE);
    IS(likes_writer_look(writer, 0, 2, &answer), LIKES_SEEN);
    IS(likes_writer_look(writer, 0, 1, &answer), LIKES_GONE);
    IS(answer.count + answer.last, 0);
    IS(likes_writer_close(writer), LIKES_GONE);
    like(writer, 1, 1, ROW - 5);
    IS(likes_writer_like(writer, 1, 1), LIKES_GONE);
    IS(likes_writer_like(writer, 2, 1), LIKES_OK);
    IS(likes_writer_close(writer), LIKES_GONE);
    IS(counted(), 2);
    IS(likes_service_bring_back_seat(service, 1), LIKES_OK);
    IS(likes_writer_like(writer, 1, 0), LIKES_OK);
    IS(counted(), 2 + ROW);
    IS(likes_service_retire_seat(service, 1), LIKES_OK);
    like(writer, 4, 2, 2);
    IS(likes_writer_flush(writer), LIKES_GONE);
    IS(likes_writer_drop(writer), 3);
    IS(likes_writer_drop(writer), 0);
    IS(likes_writer_close(writer), LIKES_OK);
    stop(2 + ROW);
}

/* A service isn't ended while a writer is open. */
static void not_ended(void) {
    likes_writer *writer = start(SEATS, 1000), *other = NULL;
    uint64_t totals[PAGES] = {9};
    IS(likes_writer_open(service, &other), LIKES_OK);
    like(writer, 0, 0, 1);
    for (int times = 0; times < 2; times++) {
        IS(likes_service_retire(service), LIKES_OPEN_WRITER);
        IS(likes_service_stop(service, totals, PAGES), LIKES_OPEN_WRITER);
        IS(likes_service_close(service), LIKES_OPEN_WRITER);
        IS(totals[0], 9);
        like(writer, 0, 0, 1);
        if (times == 0)
            IS(likes_writer_close(other), LIKES_OK);
    }
    IS(likes_writer_close(writer), LIKES_OK);
    stop(3);
}

/* A writer is opened while the driver's thread sleeps, for nothing is split: a like is counted after a period. */
static void sleeping_driver(void) {
    static const uint64_t none[PAGES];
    likes_options options = {.seats = 64, .users = 64, .room = 8};
    likes_writer *writer = NULL;
    uint32_t likes = 1;
    IS(open_shared(options, none, PAGES, NULL, 0, NULL, 0, 1000, &service), LIKES_OK);
    sleep_for(20 * MS);
    IS(likes_writer_open(service, &writer), LIKES_OK);
    like(writer, 0, 0, 1);
    uint64_t began = clock_now();
    for (; counted() == 0; likes++) {
        sleep_for(MS);
        like(writer, 1 + likes % 63, 0, 1);
    }
    IS(clock_now() - began < 500 * (uint64_t)MS, true);
    IS(likes_writer_close(writer), LIKES_OK);
    stop(likes);
}

static void wrong_uses(void) {
    likes_writer *writer = NULL, *none = NULL;
    likes_answer answer = {.count = 1};
    IS(likes_writer_open(service, &writer), LIKES_NOT_STARTED);
    IS(writer == NULL, true);
    IS(likes_writer_like(none, 0, 0), LIKES_NOT_STARTED);
    IS(likes_writer_look(none, 0, 0, &answer), LIKES_NOT_STARTED);
    IS(answer.count, 0);
    IS(likes_writer_flush(none), LIKES_NOT_STARTED);
    IS(likes_writer_drop(none), 0);
    IS(likes_writer_close(none), LIKES_OK);
    writer = start(SEATS, 1000);
    IS(likes_writer_open(service, &writer), LIKES_IN_USE);
    IS(likes_writer_like(writer, USERS, 0), LIKES_UNKNOWN_USER);
    IS(likes_writer_like(writer, UINT32_MAX, 0), LIKES_UNKNOWN_USER);
    IS(likes_writer_like(writer, 0, PAGES), LIKES_UNKNOWN_PAGE);
    IS(likes_writer_like(writer, 0, UINT32_MAX), LIKES_UNKNOWN_PAGE);
    IS(likes_writer_look(writer, USERS, 0, &answer), LIKES_UNKNOWN_USER);
    IS(likes_writer_look(writer, 0, PAGES, &answer), LIKES_UNKNOWN_PAGE);
    like(writer, 0, 0, 1);
    IS(likes_service_lock(service, 2) != NULL, true);
    IS(likes_writer_like(writer, 0, 0), LIKES_HOLDS_SEAT);
    IS(likes_writer_look(writer, 0, 0, &answer), LIKES_HOLDS_SEAT);
    IS(likes_writer_flush(writer), LIKES_HOLDS_SEAT);
    IS(likes_writer_close(writer), LIKES_HOLDS_SEAT);
    /* One that keeps nothing takes no lock. */
    IS(likes_writer_drop(writer), 1);
    IS(likes_writer_close(writer), LIKES_OK);
    likes_service_unlock(service, 2);
    stop(0);
}

/* Each allocation is refused in turn, and nothing is left of what was begun. */
static void no_memory(void) {
    likes_writer *writer = NULL;
    int tries = 0;
    do
        refused = ++tries;
    while (open_service(SEATS, 1000) == LIKES_NO_MEMORY && service == NULL);
    IS(service != NULL && tries == 4, true);
    refused = 1;
    IS(likes_writer_open(service, &writer), LIKES_NO_MEMORY);
    IS(writer == NULL && refused == 0, true);
    stop(0);
}

/* A thread with a writer and users of its own. */
typedef struct {
    uint32_t number;
    uint64_t random, likes;
    uint32_t last[USERS];
    pthread_t thread;
} worker;

static void work_once(worker *it, likes_writer *writer) {
    uint32_t user = it->number + THREADS * (uint32_t)below(&it->random, USERS / THREADS);
    uint32_t page = (uint32_t)below(&it->random, PAGES);
    uint64_t what = below(&it->random, 1000);
    likes_answer answer;
    if (what == 0) {
        IS(likes_writer_look(writer, user, page, &answer), LIKES_SEEN);
        IS(answer.last, it->last[user]);
    } else if (what == 1) {
        IS(likes_writer_flush(writer), LIKES_OK);
        sleep_for(below(&it->random, 3) * MS);
    } else if (what == 2) {
        IS(likes_service_like(service, user, page), LIKES_LIKED);
        /* This like may come before those that are kept, so they are not compared. */
        IS(likes_writer_look(writer, user, page, &answer), LIKES_SEEN);
        it->last[user] = answer.last;
        it->likes++;
    } else {
        IS(likes_writer_like(writer, user, page), LIKES_OK);
        it->last[user] = page;
        it->likes++;
    }
}

static void *work(void *at) {
    worker *it = (worker *)at;
    likes_writer *writer = NULL;
    IS(likes_writer_open(service, &writer), LIKES_OK);
    while (clock_now() < until)
        for (int times = 0; times < 100; times++)
            work_once(it, writer);
    IS(likes_writer_close(writer), LIKES_OK);
    return NULL;
}

/* Totals, and each user's last like. */
static uint64_t many(uint64_t seed, uint32_t seats, uint32_t period) {
    static worker workers[THREADS];
    uint64_t likes = 0, counts[PAGES];
    uint32_t lasts[USERS];
    IS(open_service(seats, period), LIKES_OK);
    for (uint32_t i = 0; i < THREADS; i++) {
        memset(&workers[i], 0, sizeof workers[i]);
        memset(workers[i].last, 0xff, sizeof workers[i].last);
        workers[i].number = i;
        workers[i].random = seed * THREADS + i;
        start_thread(&workers[i].thread, work, &workers[i]);
    }
    while (clock_now() < until) {
        IS(likes_service_counts(service, counts, PAGES), LIKES_COUNTED);
        sleep_for(3 * MS);
    }
    for (uint32_t i = 0; i < THREADS; i++) {
        pthread_join(workers[i].thread, NULL);
        likes += workers[i].likes;
    }
    IS(counted(), likes);
    IS(likes_service_lasts(service, lasts, USERS), LIKES_OK);
    for (uint32_t user = 0; user < USERS; user++)
        IS(lasts[user], workers[user % THREADS].last[user]);
    stop(likes);
    return likes;
}

/* Each user likes page 1 and page 2 in turn, by one writer: at every moment the counts go with the last likes. */
static void *take_turns(void *at) {
    worker *it = (worker *)at;
    likes_writer *writer = NULL;
    IS(likes_writer_open(service, &writer), LIKES_OK);
    for (; clock_now() < until; it->likes++)
        IS(likes_writer_like(writer, 0, it->likes % 2 == 0 ? 1 : 2), LIKES_OK);
    IS(likes_writer_close(writer), LIKES_OK);
    return NULL;
}

static void in_order(uint32_t period) {
    static worker it;
    uint64_t counts[PAGES];
    uint32_t lasts[USERS];
    memset(&it, 0, sizeof it);
    IS(open_service(SEATS, period), LIKES_OK);
    until = clock_now() + 300 * MS;
    start_thread(&it.thread, take_turns, &it);
    while (clock_now() < until) {
        IS(likes_service_snapshot(service, counts, PAGES, lasts, USERS), LIKES_COUNTED);
        IS(counts[1] == counts[2] || counts[1] == counts[2] + 1, true);
        IS(lasts[0], counts[1] > counts[2] ? 1 : counts[2] > 0 ? 2 : LIKES_NO_PAGE);
    }
    pthread_join(it.thread, NULL);
    stop(it.likes);
}

int main(int count, char **words) {
    if (count != 3) {
        fputs("usage: writers SEED SECONDS\n", stderr);
        return 2;
    }
    static const uint32_t seats[] = {1, 3, 64}, periods[] = {1, 1000, 20000, 100};
    uint64_t seed = strtoull(words[1], NULL, 10), seconds = strtoull(words[2], NULL, 10), likes = 0;
    alarm((unsigned)(60 + seconds));
    sleeping_driver();
    wrong_uses();
    no_memory();
    full_rows(1);
    full_rows(SEATS);
    full_rows(64);
    on_request();
    of_page(SEATS);
    of_page(64);
    for (uint64_t n = 0; n < 3; n++)
        said_and_seen(seed + n, seats[n]);
    gone();
    not_ended();
    for (uint32_t period = 2000; period <= 20000; period *= 10) {
        after_period(period, true);
        after_period(period, false);
    }
    after_rest();
    in_order(1);
    in_order(1000);
    uint64_t end = clock_now() + seconds * UINT64_C(1000000000);
    for (uint64_t round = 0; clock_now() < end; round++) {
        until = clock_now() + 400 * MS;
        likes += many(seed + round, seats[round % 3], periods[round % 4]);
    }
    printf("totals and last likes held, with %llu likes by writers\n", (unsigned long long)likes);
    return 0;
}
