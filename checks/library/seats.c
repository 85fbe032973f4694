/* Seats of a service that leave and come back, all of them too, by hand and by its calls, at any period; counts and
 * snapshots meanwhile; calls by a thread that holds a seat, each of which must answer that; rows beside the same
 * requests one by one; and rows of looks that wait.
 *
 * If something is wrong, it prints a line and exits with status 1. After 100 seconds a signal ends it: a call waits for
 * ever. */
#include "harness.h"

#include <signal.h>

enum { SEATS = 4, USERS = 8, PAGES = 2, ROUNDS = 20, LEAVERS = 2 };

static likes_service *service;
static bool is_over;

/* A service in which page 0 is split in every split phase. */
static void start(uint32_t period) {
    static const uint64_t counts[PAGES] = {10, 20};
    static const uint32_t marks[] = {0};
    likes_options options = {.seats = SEATS, .users = USERS, .room = 8};
    IS(open_shared(options, counts, PAGES, marks, 1, NULL, 0, period, &service), LIKES_OK);
    is_over = false;
}

static void stop(uint64_t likes) {
    uint64_t totals[PAGES];
    IS(likes_service_stop(service, totals, PAGES), LIKES_OK);
    IS(totals[0] + totals[1], 30 + likes);
    IS(likes_service_close(service), LIKES_OK);
    service = NULL;
}

/* By hand, with the seat locked until it is gone, or back. */
static void leave(uint32_t number) {
    likes_seat *seat = likes_service_lock(service, number);
    while (likes_seat_retire(seat) != LIKES_GONE) {
        likes_service_drive(service);
        sched_yield();
    }
    likes_service_unlock(service, number);
}

static void come_back(uint32_t number) {
    likes_seat *seat = likes_service_lock(service, number);
    while (likes_seat_come_back(seat) == LIKES_BETWEEN) {
        likes_service_drive(service);
        sched_yield();
    }
    likes_service_unlock(service, number);
}

/* Looks until one had to wait for a phase: none waits for ever. */
static void look_until_split(bool ticks) {
    likes_statistics before, now;
    likes_answer answer;
    IS(likes_service_statistics(service, &before), LIKES_OK);
    do {
        if (ticks)
            likes_service_tick(service);
        IS(likes_service_look(service, 1, 0, &answer), LIKES_SEEN);
        IS(likes_service_statistics(service, &now), LIKES_OK);
    } while (now.waits == before.waits);
}

/* All seats leave by hand, and come back, while the service rests or not. */
static void all_by_hand(uint32_t period, bool ticks) {
    uint64_t likes = 0;
    start(period);
    for (int times = 0; times < 3; times++) {
        for (uint32_t seat = 0; seat < SEATS; seat++)
            leave(seat);
        IS(likes_service_like(service, 0, 0), LIKES_GONE);
        if (times % 2 == 1)
            sleep_for(5000000);
        for (uint32_t seat = 0; seat < SEATS; seat++)
            come_back(seat);
        likes += likes_service_like(service, 1, 0) == LIKES_LIKED;
        look_until_split(ticks);
    }
    IS(likes, 3);
    stop(likes);
}

/* Counts and snapshots where all seats have left end nothing: the seats come back. */
static void moments_of_none(uint32_t period) {
    uint64_t counts[PAGES], likes = 0;
    uint32_t lasts[USERS];
    start(period);
    for (int times = 0; times < ROUNDS; times++) {
        likes += likes_service_like(service, 1, 0) == LIKES_LIKED;
        for (uint32_t seat = 0; seat < SEATS; seat++)
            IS(likes_service_retire_seat(service, seat), LIKES_OK);
        IS(likes_service_counts(service, counts, PAGES), LIKES_COUNTED);
        IS(counts[0], 10 + likes);
        IS(likes_service_snapshot(service, counts, PAGES, lasts, USERS), LIKES_COUNTED);
        IS(counts[0], 10 + likes);
        IS(lasts[1], 0);
        IS(likes_service_like(service, 1, 0), LIKES_GONE);
        for (uint32_t seat = 0; seat < SEATS; seat++)
            IS(likes_service_bring_back_seat(service, seat), LIKES_OK);
        look_until_split(false);
    }
    IS(likes, ROUNDS);
    for (int times = 0; times < 2; times++)
        IS(likes_service_retire(service), LIKES_OK);
    IS(likes_service_bring_back_seat(service, 0), LIKES_GONE);
    IS(likes_service_retire_seat(service, 0), LIKES_OK);
    IS(likes_service_counts(service, counts, PAGES), LIKES_COUNTED);
    IS(counts[0], 10 + likes);
    stop(likes);
}

/* The same with the seat unlocked between tries, so that a snapshot can read its last likes. On one processor another
 * thread may take the seat through each joined phase between two tries: then the service's call has it leave. */
static void leave_by_tries(uint32_t number) {
    uint32_t status, tries = 0;
    do {
        status = likes_seat_retire(likes_service_lock(service, number));
        likes_service_unlock(service, number);
        sched_yield();
    } while (status != LIKES_GONE && ++tries < 1000);
    if (status != LIKES_GONE)
        IS(likes_service_retire_seat(service, number), LIKES_OK);
}

static void come_back_by_tries(uint32_t number) {
    uint32_t status;
    do {
        status = likes_seat_come_back(likes_service_lock(service, number));
        likes_service_unlock(service, number);
        sched_yield();
    } while (status == LIKES_BETWEEN);
}

/* Seats leave and come back, and like between, by calls or by hand. */
typedef struct {
    uint32_t seat;
    bool by_hand;
    uint64_t likes;
    pthread_t thread;
} leaver;

static void *leave_often(void *at) {
    leaver *it = (leaver *)at;
    while (!is_set(&is_over)) {
        for (uint32_t seat = it->seat; seat < SEATS; seat += LEAVERS) {
            if (it->by_hand)
                leave_by_tries(seat);
            else
                IS(likes_service_retire_seat(service, seat), LIKES_OK);
        }
        IS(likes_service_like(service, it->seat, 0), LIKES_GONE);
        for (uint32_t seat = it->seat; seat < SEATS; seat += LEAVERS) {
            if (it->by_hand)
                come_back_by_tries(seat);
            else
                IS(likes_service_bring_back_seat(service, seat), LIKES_OK);
        }
        IS(likes_service_like(service, it->seat, 0), LIKES_LIKED);
        it->likes++;
    }
    return NULL;
}

/* Counts meanwhile have no answer but LIKES_COUNTED, and never fall. */
static void moments_meanwhile(uint32_t period, int moments) {
    static leaver leavers[LEAVERS];
    uint64_t counts[PAGES], earlier = 0, likes = 0;
    uint32_t lasts[USERS];
    start(period);
    for (uint32_t i = 0; i < LEAVERS; i++) {
        leavers[i].seat = i;
        leavers[i].by_hand = i == 0 && period == 1000;
        leavers[i].likes = 0;
        start_thread(&leavers[i].thread, leave_often, &leavers[i]);
    }
    for (int times = 0; times < moments; times++) {
        if (times % 4 == 0)
            IS(likes_service_snapshot(service, counts, PAGES, lasts, USERS), LIKES_COUNTED);
        else
            IS(likes_service_counts(service, counts, PAGES), LIKES_COUNTED);
        IS(counts[0] >= earlier, true);
        earlier = counts[0];
    }
    set(&is_over);
    for (uint32_t i = 0; i < LEAVERS; i++) {
        pthread_join(leavers[i].thread, NULL);
        likes += leavers[i].likes;
    }
    stop(likes);
}

/* Likes, so that phases go on. */
static void *like_on(void *at) {
    uint64_t *likes = (uint64_t *)at;
    while (!is_set(&is_over)) {
        *likes += likes_service_like(service, 3, 0) == LIKES_LIKED;
        sleep_for(20000);
    }
    return NULL;
}

/* A seat leaves, and comes back, in a few phases. Whether other calls are made or not. */
static void in_few_phases(uint32_t period, bool is_alone) {
    pthread_t thread;
    uint64_t likes = 0;
    start(period);
    if (!is_alone)
        start_thread(&thread, like_on, &likes);
    for (int times = 0; times < ROUNDS; times++) {
        likes_answer answer;
        uint64_t began = likes_service_phase(service), time = clock_now();
        IS(likes_service_retire_seat(service, 1), LIKES_OK);
        /* It takes three phases at most. At a short period many may pass before this thread gets a processor again. */
        IS(likes_service_phase(service) - began <= 4 || clock_now() - time < 100000000, true);
        IS(likes_service_look(service, 1, 0, &answer), LIKES_GONE);
        IS(likes_service_retire_seat(service, 1), LIKES_OK);
        began = likes_service_phase(service);
        time = clock_now();
        IS(likes_service_bring_back_seat(service, 1), LIKES_OK);
        IS(likes_service_phase(service) - began <= 4 || clock_now() - time < 100000000, true);
        IS(likes_service_bring_back_seat(service, 1), LIKES_OK);
        IS(likes_service_look(service, 1, 0, &answer), LIKES_SEEN);
    }
    IS(likes_service_retire_seat(service, SEATS), LIKES_UNKNOWN_SEAT);
    IS(likes_service_bring_back_seat(service, UINT32_MAX), LIKES_UNKNOWN_SEAT);
    set(&is_over);
    if (!is_alone)
        pthread_join(thread, NULL);
    stop(likes);
}

/* Looks that wait when their seat leaves are answered. */
static void *look_on(void *at) {
    bool *has_looked = (bool *)at;
    while (!is_set(&is_over)) {
        likes_answer answer;
        uint32_t status = likes_service_look(service, 1, 0, &answer);
        IS(status == LIKES_SEEN || status == LIKES_GONE, true);
        if (status == LIKES_SEEN)
            set(has_looked);
    }
    return NULL;
}

static void looks_meanwhile(uint32_t period) {
    pthread_t thread;
    bool has_looked = false;
    start(period);
    start_thread(&thread, look_on, &has_looked);
    for (int times = 0; times < 5 * ROUNDS || !is_set(&has_looked); times++) {
        IS(likes_service_retire_seat(service, 1), LIKES_OK);
        IS(likes_service_bring_back_seat(service, 1), LIKES_OK);
        sleep_for((uint64_t)(times % 4) * 300000);
    }
    set(&is_over);
    pthread_join(thread, NULL);
    stop(0);
}

/* A service of one seat, with page 0 split in every split phase. The seat leaves. */
static void start_gone(void) {
    static const uint64_t counts[PAGES] = {10, 20};
    static const uint32_t marks[] = {0};
    likes_options options = {.seats = 1, .users = USERS, .room = 2, .hot = 512};
    IS(open_shared(options, counts, PAGES, marks, 1, NULL, 0, 1000, &service), LIKES_OK);
    sleep_for(5000000);
    IS(likes_service_retire_seat(service, 0), LIKES_OK);
}

/* A thread brings the seat back by its own call, and looks through it: what waits is found, though nobody makes another
 * call of the service. */
static void look_after_rest(void) {
    likes_answer answer = {.status = LIKES_GONE};
    likes_found found = {.tag = 0};
    start_gone();
    likes_seat *seat = likes_service_lock(service, 0);
    sleep_for(20000000);
    IS(likes_seat_come_back(seat), LIKES_RUNS);
    while (answer.status != LIKES_WAITS) {
        likes_service_tick(service);
        likes_seat_look(seat, 0, 0, 7, &answer);
    }
    while (!likes_seat_take_found(seat, &found))
        likes_seat_turn(seat);
    IS(found.tag, 7);
    likes_service_unlock(service, 0);
    stop(0);
}

/* A thread that holds a seat for a while. */
static void *hold_one(void *at) {
    IS(likes_service_lock(service, 0) != NULL, true);
    set((bool *)at);
    sleep_for(200000000);
    likes_service_unlock(service, 0);
    return NULL;
}

static void ignore(int number) {
    (void)number;
}

/* Interrupts a thread's waits by signals. */
static void *interrupt(void *at) {
    while (!is_set(&is_over)) {
        pthread_kill(*(pthread_t *)at, SIGUSR1);
        sleep_for(1000000);
    }
    return at;
}

/* Counts wait until a seat is unlocked, where the only one has left and is held. They hardly use a processor, and signals
 * don't show in errno. */
static void counts_of_held(void) {
    pthread_t thread, interrupter, self = pthread_self();
    struct sigaction action = {.sa_handler = ignore};
    bool is_held = false;
    uint64_t counts[PAGES];
    start_gone();
    start_thread(&thread, hold_one, &is_held);
    while (!is_set(&is_held))
        sleep_for(1000000);
    sigaction(SIGUSR1, &action, NULL);
    is_over = false;
    start_thread(&interrupter, interrupt, &self);
    uint64_t worked = clock_of(CLOCK_THREAD_CPUTIME_ID);
    IS(likes_service_counts(service, counts, PAGES), LIKES_COUNTED);
    IS(clock_of(CLOCK_THREAD_CPUTIME_ID) - worked < 50000000, true);
    set(&is_over);
    pthread_join(interrupter, NULL);
    pthread_join(thread, NULL);
    stop(0);
}

/* Every call that takes locks is refused while the thread holds a seat, whichever seat it needs. */
static void all_refused(uint32_t user) {
    likes_answer answer = {.count = 1};
    uint64_t counts[PAGES] = {5, 6};
    uint32_t lasts[USERS] = {7};
    IS(likes_service_like(service, user, 0), LIKES_HOLDS_SEAT);
    IS(likes_service_look(service, user, 0, &answer), LIKES_HOLDS_SEAT);
    IS(answer.status, LIKES_HOLDS_SEAT);
    IS(answer.count, 0);
    IS(likes_service_look_within(service, user, 0, 1000, &answer), LIKES_HOLDS_SEAT);
    IS(likes_service_glance(service, user, 0, &answer), LIKES_HOLDS_SEAT);
    IS(likes_service_last(service, user, lasts), LIKES_HOLDS_SEAT);
    IS(likes_service_lasts(service, lasts, USERS), LIKES_HOLDS_SEAT);
    IS(likes_service_counts(service, counts, PAGES), LIKES_HOLDS_SEAT);
    IS(likes_service_snapshot(service, counts, PAGES, lasts, USERS), LIKES_HOLDS_SEAT);
    IS(likes_service_propose(service, lasts, 1), LIKES_HOLDS_SEAT);
    IS(likes_service_split_pages(service, lasts, 1), 0);
    IS(likes_service_seat_fault(service, user % SEATS), LIKES_HOLDS_SEAT);
    IS(likes_service_lock(service, user % SEATS) == NULL, true);
    IS(likes_service_retire_seat(service, user % SEATS), LIKES_HOLDS_SEAT);
    IS(likes_service_bring_back_seat(service, user % SEATS), LIKES_HOLDS_SEAT);
    IS(likes_service_retire(service), LIKES_HOLDS_SEAT);
    IS(likes_service_stop(service, counts, PAGES), LIKES_HOLDS_SEAT);
    IS(likes_service_close(service), LIKES_HOLDS_SEAT);
    IS(counts[0], 5);
    IS(lasts[0], 7);
}

/* The thread that holds a seat of one service may call another. */
static void other_service(void) {
    static const uint64_t counts[1];
    likes_service *other = NULL;
    likes_options options = {.seats = 1, .users = 1, .room = 1};
    IS(open_shared(options, counts, 1, NULL, 0, NULL, 0, 1000, &other), LIKES_OK);
    IS(likes_service_like(other, 0, 0), LIKES_LIKED);
    IS(likes_service_lock(other, 0) != NULL, true);
    IS(likes_service_like(other, 0, 0), LIKES_HOLDS_SEAT);
    IS(likes_service_seat_fault(service, 0), LIKES_HOLDS_SEAT);
    likes_service_unlock(other, 0);
    IS(likes_service_close(other), LIKES_OK);
}

static void holding(void) {
    likes_request request = {.user = 2};
    likes_answer answer;
    likes_found found;
    start(100);
    IS(likes_service_run(service, 2, &request, 1, &answer), 0);
    IS(answer.status, LIKES_NOT_LOCKED);
    IS(likes_service_take_found(service, 2, &found), false);
    likes_service_unlock(service, 2);
    IS(likes_service_lock(service, 2) != NULL, true);
    for (uint32_t user = 0; user < USERS; user++)
        all_refused(user);
    other_service();
    IS(likes_service_run(service, 1, &request, 1, &answer), 0);
    IS(answer.status, LIKES_NOT_LOCKED);
    likes_service_unlock(service, 1);
    IS(likes_service_run(service, 2, &request, 1, &answer), 1);
    IS(answer.status, LIKES_LIKED);
    likes_service_unlock(service, 2);
    likes_service_unlock(service, 2);
    IS(likes_service_like(service, 2, 0), LIKES_LIKED);
    stop(2);
}

/* A request of a row: mostly a like, and sometimes one that is refused. */
static likes_request drawn_request(uint64_t *random) {
    uint64_t kind = below(random, 20);
    likes_request request = {.user = (uint32_t)below(random, USERS + 1), .page = (uint32_t)below(random, PAGES + 1)};
    if (below(random, 4) > 0)
        request.user = SEATS * (uint32_t)below(random, USERS / SEATS) + 1;
    if (below(random, 8) > 0)
        request.page %= PAGES;
    request.op = kind < 16 ? LIKES_LIKE : kind < 18 ? LIKES_LOOK : kind == 18 ? LIKES_GLANCE : 7;
    request.reserved = kind % 15 == 2;
    return request;
}

/* A row of requests at a seat is answered as they are one by one. */
static void rows_are_calls(void) {
    static const uint64_t none[PAGES];
    enum { LONGEST = 200 };
    likes_options options = {.seats = SEATS, .users = USERS, .room = 8, .hot = LIKES_NO_HOT};
    likes_request row[LONGEST];
    likes_answer answers[LONGEST], answer;
    likes_service *one_by_one = NULL;
    uint64_t random = 1, sum = 0, counts[2][PAGES];
    IS(open_shared(options, none, PAGES, NULL, 0, NULL, 0, 1000, &service), LIKES_OK);
    IS(open_shared(options, none, PAGES, NULL, 0, NULL, 0, 1000, &one_by_one), LIKES_OK);
    IS(likes_service_lock(service, 1) != NULL, true);
    IS(likes_service_lock(one_by_one, 1) != NULL, true);
    for (int n = 0; n < 2000; n++) {
        size_t length = below(&random, LONGEST + 1);
        for (size_t i = 0; i < length; i++)
            row[i] = drawn_request(&random);
        IS(likes_service_run(service, 1, row, length, answers), length);
        for (size_t i = 0; i < length; i++) {
            IS(likes_service_run(one_by_one, 1, &row[i], 1, &answer), 1);
            hold(memcmp(&answer, &answers[i], sizeof answer) == 0, "a row is answered otherwise than its requests");
            hold((answer.status == LIKES_UNKNOWN_OP) == (row[i].reserved != 0 || row[i].op > LIKES_GLANCE),
                 "a request is taken for another");
        }
    }
    likes_service_unlock(service, 1);
    likes_service_unlock(one_by_one, 1);
    IS(likes_service_stop(service, counts[0], PAGES), LIKES_OK);
    IS(likes_service_stop(one_by_one, counts[1], PAGES), LIKES_OK);
    for (uint32_t page = 0; page < PAGES; page++) {
        sum += counts[0][page];
        IS(counts[0][page], counts[1][page]);
    }
    for (likes_service **it = &service; it != NULL; it = it == &service ? &one_by_one : NULL) {
        likes_statistics told;
        IS(likes_service_statistics(*it, &told), LIKES_OK);
        IS(told.likes, sum);
        IS(likes_service_close(*it), LIKES_OK);
    }
    service = NULL;
}

/* Looks at a split page in rows, longer than the seat has room: what waits is found once, in the order of asking, and
 * as many of them as there is room for may be asked and not taken. */
static void rows_of_looks(void) {
    enum { LONGEST = 30, ROOM = 8, ROWS = 2000 };
    static uint64_t waiting[ROWS * LONGEST];
    likes_request row[LONGEST];
    likes_answer answers[LONGEST];
    likes_found found;
    uint64_t random = 1, tag = 0, likes = 0, asked = 0, taken = 0, full = 0;
    start(100);
    likes_seat *seat = likes_service_lock(service, 1);
    for (int n = 0; n < ROWS || taken < asked; n++) {
        size_t length = n < ROWS ? below(&random, LONGEST + 1) : 0;
        for (size_t i = 0; i < length; i++) {
            uint32_t kind = (uint32_t)below(&random, 8);
            row[i] = (likes_request){.tag = tag++, .user = 1, .page = kind == 7};
            row[i].op = kind < 4 ? LIKES_LOOK : kind == 4 ? LIKES_GLANCE : LIKES_LIKE;
        }
        size_t done = likes_service_run(service, 1, row, length, answers);
        for (size_t i = 0; i < done; i++) {
            likes += answers[i].status == LIKES_LIKED;
            if (answers[i].status == LIKES_WAITS)
                waiting[asked++] = row[i].tag;
        }
        if (done < length) {
            IS(answers[done].status, LIKES_NO_ROOM);
            IS(asked - taken, ROOM);
            full++;
        }
        hold(asked - taken <= ROOM, "more looks wait than there is room for");
        likes_service_drive(service);
        likes_seat_turn(seat);
        if (n >= ROWS || below(&random, 4) == 0)
            while (likes_service_take_found(service, 1, &found))
                IS(found.tag, waiting[taken++]);
    }
    hold(full > 0, "the room was never full");
    likes_service_unlock(service, 1);
    stop(likes);
}

int main(void) {
    static const uint32_t periods[] = {1, 1000, 10000};
    alarm(100);
    holding();
    rows_are_calls();
    rows_of_looks();
    look_after_rest();
    counts_of_held();
    for (int n = 0; n < 3; n++) {
        all_by_hand(periods[n], false);
        all_by_hand(periods[n], true);
        moments_of_none(periods[n]);
        moments_meanwhile(periods[n], n < 2 ? 500 : 50);
        looks_meanwhile(periods[n]);
    }
    in_few_phases(1, false);
    in_few_phases(1000, true);
    in_few_phases(20000, true);
    in_few_phases(20000, false);
    puts("seats left and came back, and no call waited for ever");
    return 0;
}
