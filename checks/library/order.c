/* Whether one order that keeps time explains what threads did at a service: short histories of likes, looks, glances,
 * rows, returns of seats, writers and snapshots, each between two moments of rest (order.h).
 *
 * usage: order SEED SECONDS
 *
 * Half of the time threads hold seats of likes.h, and phases of the driver change meanwhile. A chain is a seat, whose
 * phases never fall. The other half they share a service of likes_service.h, whose phases change by themselves. There a
 * chain is what a thread does at a seat, and what its writer does there. A glance that tells that its page is split
 * shows a last like, but its count need not fit. A look that waits is noted with the call that found it, and a writer's
 * like hasn't returned before the writer hands all over. At rest, the counts and the last likes must be those that the
 * order leaves.
 *
 * It must find faults, too: each history is searched again with a wrong number in place of one that was shown, and some
 * of these must have no order. Short ones are compared with trying all orders; no order shows another last like of a
 * seat's user, or another count at rest; none shows the counts of two glances that cross; and none that keeps time shows
 * a look that misses a like whose call had returned. If something is wrong, it prints a line and exits with status 1.
 * After 60 seconds, and those asked for, a signal ends it. */
#include "order.h"

enum { MOST_THREADS = 4, MOST_SEATS = 4, MOST_STEPS = 8, MOST_MOMENTS = 4, MOMENTS = CHAINS - 1 };
enum { ROOM = 32, SPINS = 200, HISTORIES = 500, ROW = 3 };

/* After all phases: what is shown at rest. */
#define AT_REST (UINT64_MAX - 1)

/* What threads do, and where. */
typedef struct {
    uint32_t threads, seats, marks, steps; /* of marked pages a bit for each */
    uint32_t end_share;                    /* in how many of 100 turns a phase may end */
    bool is_shared;
} game;

typedef struct {
    uint32_t number;
    uint64_t random, phase;
    likes_writer *writer;
    pthread_t thread;
} player;

static game now;
static player players[MOST_THREADS];
static likes_driver driver;
static likes_seat seats[MOST_SEATS];
static likes_service *service;
static history seen;
static uint64_t glances[CHAINS][MOST_DEEDS]; /* the counts that needn't fit */

/* The number of the present history, or UINT64_MAX at the end; and how many threads are done with it, and have left. */
static uint64_t begun, done, left;

/* Whether a seat that retires waits for the end of a split phase. */
static bool is_end_wanted;

/* What was found. */
static uint64_t histories, deeds, changed, refused, loose, unexplained;

static uint64_t load(const uint64_t *at) {
    return __atomic_load_n(at, __ATOMIC_SEQ_CST);
}

static void add_one(uint64_t *at) {
    __atomic_fetch_add(at, 1, __ATOMIC_SEQ_CST);
}

/* Waits for others. On a busy machine, a thread that has slept gets a processor soon, and one that spins doesn't. */
static void spin(unsigned *tries) {
    if (++*tries % SPINS == 0)
        sleep_for(1);
}

static void pause_a_little(player *by) {
    for (uint64_t times = below(&by->random, 4) * below(&by->random, SPINS); times > 0; times--)
        load(&begun);
    if (below(&by->random, 40) == 0)
        sched_yield();
}

static bool is_split(uint64_t phase, uint32_t page) {
    return phase % 2 == 1 && (now.marks >> page & 1) == 1;
}

/* Seats. */

/* A turn of the driver, by the first thread. Before it, the counts of one moment are noted where there is one. */
static void turn(player *by, uint32_t end) {
    uint64_t counts[PAGES], phase = likes_driver_phase(&driver), at = read_clock();
    bool is_new = by->phase != phase && seen.chains[MOMENTS].length < MOST_MOMENTS;
    if (is_new && likes_driver_snapshot(&driver, 0, counts, PAGES) == LIKES_COUNTED) {
        deed *moment = add_deed(&seen, MOMENTS, 2 * phase + 1, at);
        for (uint32_t page = 0; page < PAGES; page++)
            show_count(moment, page, counts[page]);
        by->phase = phase;
    }
    likes_driver_turn(&driver, end);
}

/* What a thread does while its seat can't go on. The first one releases phases. It ends one only where that is wanted:
 * if all ended at once, no seat would do anything in them. */
static void wait_for_phase(player *by, unsigned *tries) {
    if (by->number == 0)
        turn(by, __atomic_exchange_n(&is_end_wanted, false, __ATOMIC_SEQ_CST) ? LIKES_END : LIKES_NO_END);
    spin(tries);
}

/* The phase in which a seat has done something. */
static uint64_t phase_at(player *by) {
    chain *own = &seen.chains[by->number];
    uint64_t phase = likes_seat_phase(&seats[by->number]);
    hold(own->length == 0 || own->deeds[own->length - 1].phase <= 2 * phase, "a seat's phase has fallen");
    return phase;
}

/* Notes what a call that began then has shown. */
static void note_shown(uint32_t number, uint64_t phase, uint64_t at, uint32_t user, uint32_t page, bool is_exact,
                       likes_answer shown) {
    deed *made = add_deed(&seen, number, 2 * phase, at);
    show_last(made, user, shown.last);
    if (is_exact)
        show_count(made, page, shown.count);
    else
        glances[number][made - seen.chains[number].deeds] = (shown.count + 1) * PAGES + page;
}

/* Notes the looks that a call of a seat found which began then: they ran before all else that the call did. */
static void note_found(uint32_t number, uint64_t at) {
    likes_found it;
    while (likes_seat_take_found(&seats[number], &it))
        note_shown(number, it.ran, at, it.user, it.page, true, (likes_answer){.count = it.count, .last = it.last});
}

/* Notes a request of a call that began then, if it was done. Whether it was: else the seat can't go on now. */
static bool note_done(player *by, uint64_t at, likes_request made, likes_answer answer) {
    if (answer.status == LIKES_BETWEEN)
        return false;
    uint64_t phase = phase_at(by);
    uint32_t at_split = made.op == LIKES_LOOK ? LIKES_WAITS : LIKES_GLIMPSED;
    IS(answer.status, made.op == LIKES_LIKE ? LIKES_LIKED : is_split(phase, made.page) ? at_split : LIKES_SEEN);
    if (made.op == LIKES_LIKE)
        add_like(&seen, by->number, 2 * phase, at, made.user, made.page);
    else if (answer.status != LIKES_WAITS)
        note_shown(by->number, phase, at, made.user, made.page, answer.status == LIKES_SEEN, answer);
    return true;
}

static uint32_t try_once(player *by, likes_request asked, likes_answer *answer) {
    likes_seat *seat = &seats[by->number];
    if (asked.op == LIKES_LIKE)
        return likes_seat_like(seat, asked.user, asked.page);
    if (asked.op == LIKES_LOOK)
        return likes_seat_look(seat, asked.user, asked.page, 0, answer);
    return likes_seat_glance(seat, asked.user, asked.page, answer);
}

/* Makes a request at the thread's seat, and notes it. A look that waits is noted where it is found. */
static void ask(player *by, likes_request asked) {
    for (unsigned tries = 0;; wait_for_phase(by, &tries)) {
        likes_answer answer = {.count = 0};
        uint64_t at = read_clock();
        answer.status = try_once(by, asked, &answer);
        note_found(by->number, at);
        if (note_done(by, at, asked, answer))
            return;
    }
}

/* Makes requests in a row. */
static void ask_row(player *by, const likes_request *asked, size_t length) {
    likes_answer answers[ROW];
    size_t first = 0;
    for (unsigned tries = 0;; wait_for_phase(by, &tries)) {
        uint64_t at = read_clock();
        size_t done_now = likes_seat_run(&seats[by->number], asked + first, length - first, answers, length - first);
        note_found(by->number, at);
        for (size_t i = 0; i < done_now; i++)
            hold(note_done(by, at, asked[first + i], answers[i]), "a row was not done as far as it says");
        first += done_now;
        if (first == length)
            return;
    }
}

static likes_request draw_request(player *by) {
    static const uint32_t ops[] = {LIKES_LIKE, LIKES_LIKE, LIKES_LOOK, LIKES_GLANCE};
    uint32_t own = (USERS - 1 - by->number) / now.seats + 1;
    return (likes_request){.user = by->number + now.seats * (uint32_t)below(&by->random, own),
                           .page = (uint32_t)below(&by->random, PAGES),
                           .op = ops[below(&by->random, 4)]};
}

/* Makes one request, or a row of them if so many may still be made. How many were made. */
static uint32_t like_or_look(player *by, uint32_t most) {
    likes_request asked[ROW];
    uint32_t length = most >= ROW && below(&by->random, 5) == 0 ? ROW : 1;
    for (uint32_t i = 0; i < length; i++)
        asked[i] = draw_request(by);
    if (length == 1)
        ask(by, asked[0]);
    else
        ask_row(by, asked, length);
    return length;
}

/* A seat leaves, and comes back. */
static void rest(player *by) {
    unsigned tries = 0;
    uint32_t status;
    uint64_t at = read_clock();
    while ((status = likes_seat_retire(&seats[by->number])) != LIKES_GONE) {
        note_found(by->number, at);
        if (status == LIKES_RUNS)
            set(&is_end_wanted);
        wait_for_phase(by, &tries);
        at = read_clock();
    }
    note_found(by->number, at);
    pause_a_little(by);
    while (likes_seat_come_back(&seats[by->number]) != LIKES_RUNS)
        wait_for_phase(by, &tries);
}

static void play_seat(player *by) {
    for (uint32_t step = 0; step < now.steps;) {
        if (below(&by->random, 20) == 0) {
            rest(by);
            step++;
        } else {
            step += like_or_look(by, now.steps - step);
        }
        if (by->number == 0)
            turn(by, below(&by->random, 100) < now.end_share ? LIKES_END : LIKES_NO_END);
        pause_a_little(by);
    }
}

/* A turn of a seat. Whether it runs a phase. */
static bool turn_seat(uint32_t number) {
    uint64_t at = read_clock();
    uint32_t status = likes_seat_turn(&seats[number]);
    note_found(number, at);
    return status == LIKES_RUNS;
}

/* Until all threads are done, a seat answers phases. */
static void answer_phases(player *by) {
    unsigned tries = 0;
    while (load(&done) < now.threads) {
        turn_seat(by->number);
        wait_for_phase(by, &tries);
    }
}

/* Goes on, with all seats in one thread, until all run a phase of the kind that is asked for. */
static void go_to(uint64_t kind) {
    uint32_t running = 0;
    while (running < now.seats || likes_driver_phase(&driver) % 2 != kind) {
        likes_driver_turn(&driver, running < now.seats ? LIKES_NO_END : LIKES_END);
        running = 0;
        for (uint32_t i = 0; i < now.seats; i++)
            running += turn_seat(i);
    }
}

/* What seats show at rest. */
static void show_seats(deed *to) {
    likes_answer answer;
    uint32_t last;
    for (uint32_t page = 0; page < PAGES; page++) {
        IS(likes_seat_look(&seats[0], 0, page, 0, &answer), LIKES_SEEN);
        show_count(to, page, answer.count);
    }
    for (uint32_t user = 0; user < USERS; user++) {
        IS(likes_seat_last(&seats[user % now.seats], user, &last), LIKES_OK);
        show_last(to, user, last);
    }
}

static void open_seats(likes_options options, const uint64_t *counts, const uint32_t *marks, size_t marks_len) {
    IS(open_core(options, counts, PAGES, marks, marks_len, NULL, 0, &driver), LIKES_OK);
    for (uint32_t i = 0; i < now.seats; i++)
        IS(likes_driver_take_seat(&driver, &seats[i]), LIKES_OK);
}

static void free_seats(void) {
    for (uint32_t i = 0; i < now.seats; i++)
        likes_seat_free(&seats[i]);
    likes_driver_free(&driver);
}

/* A service. */

/* A moment of the service, taken by the first thread. */
static void take_moment(void) {
    uint64_t counts[PAGES];
    uint32_t lasts[USERS];
    if (seen.chains[MOMENTS].length == MOST_MOMENTS)
        return;
    uint64_t at = read_clock();
    IS(likes_service_snapshot(service, counts, PAGES, lasts, USERS), LIKES_COUNTED);
    deed *moment = add_deed(&seen, MOMENTS, 0, at);
    for (uint32_t page = 0; page < PAGES; page++)
        show_count(moment, page, counts[page]);
    for (uint32_t user = 0; user < USERS; user++)
        show_last(moment, user, lasts[user]);
}

/* Where a thread notes what it does at a user's seat, and behind that what its writer does there. */
static uint32_t chain_at(player *by, uint32_t user) {
    return 2 * (by->number * now.seats + user % now.seats);
}

/* A writer hands over all its likes, so their calls have returned. */
static void flush(player *by) {
    IS(likes_writer_flush(by->writer), LIKES_OK);
    uint64_t at = read_clock();
    for (uint32_t seat = 0; seat < now.seats; seat++) {
        chain *own = &seen.chains[chain_at(by, seat) + 1];
        for (uint32_t n = 0; n < own->length; n++)
            if (own->deeds[n].returned == UINT64_MAX)
                own->deeds[n].returned = at;
    }
}

static void call_service(player *by) {
    uint32_t user = (uint32_t)below(&by->random, USERS), page = (uint32_t)below(&by->random, PAGES);
    uint32_t single = chain_at(by, user), written = single + 1;
    uint64_t choice = below(&by->random, 100), at = read_clock();
    likes_answer answer;
    if (choice < 30) {
        IS(likes_service_like(service, user, page), LIKES_LIKED);
        add_like(&seen, single, 0, at, user, page);
    } else if (choice < 45) {
        IS(likes_service_look(service, user, page, &answer), LIKES_SEEN);
        note_shown(single, 0, at, user, page, true, answer);
    } else if (choice < 60) {
        uint32_t status = likes_service_glance(service, user, page, &answer);
        IS(status == LIKES_SEEN || status == LIKES_GLIMPSED, true);
        note_shown(single, 0, at, user, page, status == LIKES_SEEN, answer);
    } else if (choice < 85) {
        IS(likes_writer_like(by->writer, user, page), LIKES_OK);
        add_like(&seen, written, 0, at, user, page)->returned = UINT64_MAX;
    } else if (choice < 95) {
        IS(likes_writer_look(by->writer, user, page, &answer), LIKES_SEEN);
        note_shown(written, 0, at, user, page, true, answer);
    } else if (by->number == 0) {
        take_moment();
    } else {
        flush(by);
    }
}

static void play_service(player *by) {
    for (uint32_t step = 0; step < now.steps; step++) {
        call_service(by);
        pause_a_little(by);
    }
    flush(by);
}

/* What a service shows at rest. */
static void show_service(deed *to) {
    likes_answer answer;
    uint32_t last;
    for (uint32_t page = 0; page < PAGES; page++) {
        IS(likes_service_look(service, 0, page, &answer), LIKES_SEEN);
        show_count(to, page, answer.count);
    }
    for (uint32_t user = 0; user < USERS; user++) {
        IS(likes_service_last(service, user, &last), LIKES_OK);
        show_last(to, user, last);
    }
}

/* Both. */

/* Takes part in one history. */
static void take_part(player *by) {
    if (now.is_shared)
        play_service(by);
    else
        play_seat(by);
    add_one(&done);
    if (!now.is_shared)
        answer_phases(by);
    add_one(&left);
}

static void *play(void *at) {
    player *it = (player *)at;
    unsigned tries = 0;
    for (uint64_t round = 1; load(&begun) != UINT64_MAX;) {
        if (load(&begun) == round) {
            take_part(it);
            round++;
        }
        spin(&tries);
    }
    return NULL;
}

/* The history with the counts of all glances. Whether there are any. */
static bool with_glances(history *to) {
    bool has_any = false;
    *to = seen;
    for (uint32_t i = 0; i < MOMENTS; i++) {
        for (uint32_t n = 0; n < seen.chains[i].length; n++) {
            if (glances[i][n] == 0)
                continue;
            show_count(&to->chains[i].deeds[n], (uint32_t)(glances[i][n] % PAGES), glances[i][n] / PAGES - 1);
            has_any = true;
        }
    }
    return has_any;
}

/* The history with another number in place of one that a deed shows. Whether the deed that was drawn shows any, and
 * whether there must be no order. */
static bool with_fault(player *by, history *to, bool *has_none) {
    uint32_t number = (uint32_t)below(&by->random, CHAINS), length = seen.chains[number].length;
    *to = seen;
    deed *it = &to->chains[number].deeds[length > 0 ? below(&by->random, length) : 0];
    bool is_last = it->users != 0 && (it->pages == 0 || below(&by->random, 4) == 0);
    *has_none = is_last ? !now.is_shared : it->phase == AT_REST;
    if (is_last) {
        uint32_t *last = &it->lasts[__builtin_ctz(it->users)];
        *last = (*last + 1 + (uint32_t)below(&by->random, PAGES)) % (PAGES + 1);
    } else if (it->pages != 0) {
        it->counts[__builtin_ctz(it->pages)] += below(&by->random, 2) == 0 ? 1 : UINT64_MAX;
    }
    return length > 0 && (it->users | it->pages) != 0;
}

/* Searches the history, and what comes of faults in it. */
static void judge(player *by) {
    static history other;
    bool has_none;
    hold(has_order(&seen), "no order explains a history");
    hold(has_order_by_trying(&seen) != 0, "the search found an order, but trying all doesn't");
    histories++;
    for (uint32_t i = 0; i < CHAINS; i++)
        deeds += seen.chains[i].length;
    if (with_glances(&other)) {
        loose++;
        unexplained += !has_order(&other);
    }
    if (!with_fault(by, &other, &has_none))
        return;
    bool is_explained = has_order(&other);
    int by_trying = has_order_by_trying(&other);
    hold(!has_none || !is_explained, "an order explains a number that is wrong in any");
    hold(by_trying < 0 || by_trying == is_explained, "the search and trying all orders differ");
    changed++;
    refused += !is_explained;
}

/* One history, from rest to rest. */
static void make_history(player *by, uint64_t number) {
    unsigned tries = 0;
    state first = seen.first;
    memset(&seen, 0, sizeof seen);
    memset(glances, 0, sizeof glances);
    seen.first = first;
    by->phase = UINT64_MAX;
    if (!now.is_shared && below(&by->random, 2) == 0)
        go_to(1);
    done = left = 0;
    __atomic_store_n(&begun, number, __ATOMIC_SEQ_CST);
    take_part(by);
    while (load(&left) < now.threads)
        spin(&tries);
    if (!now.is_shared)
        go_to(0);
    deed *end = add_deed(&seen, MOMENTS, AT_REST, read_clock());
    if (now.is_shared)
        show_service(end);
    else
        show_seats(end);
    keep_chains(&seen);
    judge(by);
    memcpy(seen.first.counts, end->counts, sizeof end->counts);
    memcpy(seen.first.lasts, end->lasts, sizeof end->lasts);
}

/* Draws a game. Mostly pages are marked. */
static game draw(uint64_t *random) {
    game made = {.is_shared = below(random, 2) == 0, .marks = (uint32_t)below(random, 1 << PAGES)};
    made.threads = made.seats = 2 + (uint32_t)below(random, MOST_THREADS - 1);
    if (made.is_shared) {
        made.threads = 2 + (uint32_t)below(random, 2);
        made.seats = 1 + (uint32_t)below(random, 2);
    }
    made.steps = 2 + (uint32_t)below(random, MOST_STEPS - 1);
    made.end_share = (uint32_t)(below(random, 3) * 40);
    return made;
}

/* The history before all deeds, where no user has a last like. */
static void begin_with(const uint64_t *counts) {
    memset(&seen, 0, sizeof seen);
    memcpy(seen.first.counts, counts, sizeof seen.first.counts);
    for (uint32_t user = 0; user < USERS; user++)
        seen.first.lasts[user] = NO_PAGE;
}

/* A service or its seats, and so many histories of it. */
static void play_game(uint64_t seed, uint64_t end) {
    uint64_t random = seed, counts[PAGES] = {0, 5, LIKES_MAX_COUNT};
    uint32_t marks[PAGES], marks_len = 0;
    now = draw(&random);
    for (uint32_t page = 0; page < PAGES; page++)
        if (now.marks >> page & 1)
            marks[marks_len++] = page;
    likes_options options = {.seats = now.seats, .users = USERS, .room = ROOM};
    if (now.is_shared)
        IS(open_shared(options, counts, PAGES, marks, marks_len, NULL, 0, 1 + (uint32_t)below(&random, 300), &service),
           LIKES_OK);
    else
        open_seats(options, counts, marks, marks_len);
    begin_with(counts);
    begun = 0;
    for (uint32_t i = 0; i < now.threads; i++) {
        players[i] = (player){.number = i, .random = seed * MOST_THREADS + i};
        if (now.is_shared)
            IS(likes_writer_open(service, &players[i].writer), LIKES_OK);
        if (i > 0)
            start_thread(&players[i].thread, play, &players[i]);
    }
    for (uint64_t number = 1; number <= HISTORIES && clock_now() < end; number++)
        make_history(&players[0], number);
    __atomic_store_n(&begun, UINT64_MAX, __ATOMIC_SEQ_CST);
    for (uint32_t i = 1; i < now.threads; i++)
        pthread_join(players[i].thread, NULL);
    for (uint32_t i = 0; i < now.threads; i++)
        IS(likes_writer_close(players[i].writer), LIKES_OK);
    if (now.is_shared)
        IS(likes_service_close(service), LIKES_OK);
    else
        free_seats();
    service = NULL;
}

/* Two seats, in a phase of that kind, with two marked pages. */
static void open_two(uint64_t kind) {
    static const uint32_t marks[] = {0, 1};
    static const uint64_t counts[PAGES];
    now = (game){.threads = 2, .seats = 2, .marks = 3};
    open_seats((likes_options){.seats = 2, .users = USERS, .room = ROOM}, counts, marks, 2);
    begin_with(counts);
    for (uint32_t i = 0; i < 2; i++)
        players[i] = (player){.number = i};
    go_to(kind);
}

/* A seat likes a page, and then the other one looks at it. If it misses the like, an order shows that, but none that
 * keeps time. */
static void look_late(void) {
    static history other;
    open_two(0);
    ask(&players[0], (likes_request){.user = 0, .page = 0, .op = LIKES_LIKE});
    ask(&players[1], (likes_request){.user = 1, .page = 0, .op = LIKES_LOOK});
    hold(has_order(&seen), "no order explains a look after a like");
    other = seen;
    deed *late = &other.chains[1].deeds[0];
    late->counts[0] = 0;
    hold(!has_order(&other), "an order explains a look that misses a like which had returned");
    late->begun = other.chains[0].deeds[0].begun;
    hold(has_order(&other), "no order explains a look beside a like");
    free_seats();
}

/* Two seats like a page each in a split phase, and then glance at the other's: both counts lack a like, and no order
 * shows that. */
static void cross(void) {
    static history other;
    open_two(1);
    for (uint32_t i = 0; i < 2; i++)
        ask(&players[i], (likes_request){.user = i, .page = i, .op = LIKES_LIKE});
    for (uint32_t i = 0; i < 2; i++)
        ask(&players[i], (likes_request){.user = i, .page = 1 - i, .op = LIKES_GLANCE});
    hold(has_order(&seen), "no order explains glances at split pages");
    hold(with_glances(&other) && !has_order(&other), "an order explains counts of glances that cross");
    free_seats();
}

int main(int count, char **words) {
    if (count != 3) {
        fputs("usage: order SEED SECONDS\n", stderr);
        return 2;
    }
    uint64_t seed = strtoull(words[1], NULL, 10), seconds = strtoull(words[2], NULL, 10);
    alarm((unsigned)(60 + seconds));
    uint64_t end = clock_now() + seconds * UINT64_C(1000000000);
    look_late();
    cross();
    for (uint64_t round = 0; clock_now() < end; round++)
        play_game(1000 * seed + round, end);
    hold(changed < 50 || refused > 0, "no wrong number was found");
    printf("%llu histories of %llu deeds have an order; of %llu with a wrong number %llu have none, "
           "and of %llu with the counts of glances %llu\n",
           (unsigned long long)histories, (unsigned long long)deeds, (unsigned long long)changed,
           (unsigned long long)refused, (unsigned long long)loose, (unsigned long long)unexplained);
    return 0;
}
