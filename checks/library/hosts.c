/* Random hosts: rounds of threads that like and look at whichever seat is free, pause, rest, retire and come back, over
 * phases of random lengths. What the calls answer is compared with a model that was written from likes.h alone
 * (model.h, events.h).
 *
 * usage: hosts SEED SECONDS
 *
 * The model knows what each call may answer: the first refusal that applies, NO_ROOM exactly if the room is full,
 * each user's last like, also of the opening, and each look that waited once, with its tag, in the order of
 * asking, in the next phase. A call writes nothing beside its answers. When a split phase begins, the driver is asked
 * which pages are split: at most 64, each once, the marked ones among them, and the others proposed before by the
 * round. Where it proposes none, the library may find pages that were liked. After the round:
 *   - looks at split pages waited, and no others did
 *   - each page's final count is its initial count and its likes, and a snapshot's the likes of the phases up to it
 *   - each count has all likes of earlier phases and the seat's own before it, none of later phases and none of the
 *     seat's own after it. In half of the rounds calls are timed: a count has no like that began after it and, where
 *     the page isn't split, each like that was done before it
 *   - a request ran after its phase was released and before the end was announced
 * Otherwise it exits with status 1, and says what it saw, with the seed of the round. */
#include "model.h"

/* A round in numbers. */
typedef struct {
    uint32_t threads, calls, longest;
    uint32_t end_share; /* in how many of 100 turns the end may be asked for; 0: in split phases alone, which only come
                           where last counts have ended a phase into which a seat came back */
    bool is_shared;     /* whether the seats' threads make turns of the driver too */
    bool is_abandoned;  /* whether the driver is freed while seats go on */
} schedule;

typedef struct {
    game *game;
    const schedule *plan;
    uint64_t random, tag;
    pthread_t thread;
} player;

enum { MOST_THREADS = 80, MANY_PAGES = 10000, WRITTEN = 1 << 22 };

static uint64_t rounds, all_events, all_phases, all_waits, all_moments;

/* Lower numbers more often. */
static uint64_t low(uint64_t *state, uint64_t bound) {
    return below(state, 1 + below(state, bound));
}

static bool one_in(uint64_t *state, uint64_t bound) {
    return below(state, bound) == 0;
}

static void pause_for(uint64_t *random, uint32_t longest) {
    if (one_in(random, 2))
        sched_yield();
    else
        sleep_for(below(random, 1000 * (uint64_t)longest + 1));
}

/* A marked page, one of the round's stock, one of the last, one of the first, or any. */
static uint32_t draw_page(const record *it, uint64_t *random) {
    uint64_t choice = below(random, 8), few = it->pages < 64 ? it->pages : 64;
    if (below(random, 16) < it->rush)
        return it->stock[0];
    if (choice < 2 && it->marks_len > 0)
        return it->marks[low(random, it->marks_len)];
    if (choice < 5)
        return it->stock[low(random, STOCK)];
    if (choice < 6)
        return (uint32_t)(it->pages - 1 - low(random, few));
    return (uint32_t)(choice < 7 ? low(random, few) : below(random, it->pages));
}

/* A request at a seat, mostly of a user of its own. In a row it may have an unknown operation. */
static likes_request draw(const game *it, uint32_t number, player *by, bool in_row) {
    uint64_t *random = &by->random;
    uint32_t seats = it->record.options.seats, users = it->record.options.users;
    uint32_t own = (users - number + seats - 1) / seats;
    likes_request request = {.tag = by->tag++, .page = draw_page(&it->record, random)};
    request.op = (uint32_t)(below(random, 4) < 2 ? LIKES_LIKE : 1 + below(random, 2));
    request.user = number + seats * (uint32_t)low(random, own);
    if (one_in(random, 100))
        request.user = (uint32_t)(one_in(random, 4) ? drawn(random) : below(random, (uint64_t)users + 2));
    if (one_in(random, 100))
        request.page = one_in(random, 2) ? (uint32_t)drawn(random) : (uint32_t)it->record.pages;
    if (in_row && one_in(random, 100))
        request.op = one_in(random, 2) ? (uint32_t)drawn(random) : 3;
    if (in_row && one_in(random, 100))
        request.reserved = one_in(random, 2) ? (uint32_t)drawn(random) : 1;
    return request;
}

/* Compares the phase, as its handle tells it to several threads at once, with a seat's own. A service is one phase
 * ahead of a seat that has answered. It is told one behind when its driver has only just released a phase. */
static void check_phase(game *it, uint32_t number) {
    uint64_t seat_phase = it->seats[number].phase;
    bool is_left = it->seats[number].status == LIKES_GONE || it->seats[number].status == LIKES_EMPTY;
    if (is_left)
        return;
    uint64_t now = likes_phase_now(&it->phase);
    if (now + 1 < seat_phase || now > seat_phase + 1)
        fail(&it->record, "seat %u: the phase is reported as %llu in phase %llu", number, (unsigned long long)now,
             (unsigned long long)seat_phase);
}

/* Makes a call, or a row of them. The row and its answers may be of different lengths, or of none. */
static void call(player *by, uint32_t number) {
    uint64_t *random = &by->random;
    likes_request requests[ROW];
    if (!one_in(random, 4)) {
        requests[0] = draw(by->game, number, by, false);
        call_one(by->game, number, requests);
        return;
    }
    size_t requests_len = low(random, ROW + 1), answers_len = requests_len;
    if (one_in(random, 4))
        answers_len = low(random, ROW + 1);
    for (size_t i = 0; i < requests_len; i++)
        requests[i] = draw(by->game, number, by, true);
    call_row(by->game, number, requests, requests_len, answers_len);
}

static void take_some(player *by, uint32_t number) {
    uint64_t most = one_in(&by->random, 2) ? UINT64_MAX : 1 + below(&by->random, 8);
    while (most-- > 0 && take_found(by->game, number))
        continue;
}

/* A user of the seat, or any number. */
static void look_at_last(player *by, uint32_t number) {
    uint32_t users = by->game->record.options.users, seats = by->game->record.options.seats;
    uint32_t own = (users - number + seats - 1) / seats;
    if (one_in(&by->random, 2)) {
        uint32_t user = number + seats * (uint32_t)below(&by->random, own);
        check_last(by->game, number, one_in(&by->random, 8) ? (uint32_t)drawn(&by->random) : user);
        return;
    }
    uint32_t from = (uint32_t)below(&by->random, own + 1);
    size_t length = low(&by->random, own - from + 1 < 1000 ? own - from + 1 : 1000);
    check_lasts(by->game, number, from, one_in(&by->random, 8) ? own - from + 1 : length);
}

/* What a thread does with a seat that it holds. */
static void act(player *by, uint32_t number) {
    uint64_t choice = below(&by->random, 1000);
    if (choice < 900)
        call(by, number);
    else if (choice < 950)
        take_some(by, number);
    else if (choice < 960)
        look_at_last(by, number);
    else if (choice < 980)
        turn_seat(by->game, number);
    else if (choice < 985)
        return_seat(by->game, number);
    else if (choice < 990)
        check_phase(by->game, number);
    else if (choice < 995)
        pause_for(&by->random, by->plan->longest);
}

/* A seat that has made its calls retires. Then it is called a few times more. It may come back a few times, and be freed
 * in the end. */
static void leave(player *by, uint32_t number) {
    game *it = by->game;
    seat *at = &it->seats[number];
    bool is_left = at->status == LIKES_GONE || at->status == LIKES_EMPTY;
    if (!is_left && retire_seat(it, number) != LIKES_GONE) {
        if (one_in(&by->random, 2))
            take_found(it, number);
        is_left = by->plan->is_abandoned;
    }
    if (!is_left || at->late_calls > 0) {
        at->late_calls -= is_left;
        if (is_left)
            act(by, number);
        return;
    }
    if (at->status == LIKES_GONE && at->returns > 0) {
        at->returns--;
        at->calls = (uint32_t)low(&by->random, 200);
        return_seat(it, number);
        return;
    }
    if (at->status != LIKES_EMPTY && one_in(&by->random, 4)) {
        likes_seat_free(&at->handle);
        at->status = LIKES_EMPTY;
        at->late_calls = (uint32_t)below(&by->random, 10);
        return;
    }
    while (at->status != LIKES_EMPTY && take_found(it, number))
        continue;
    at->is_done = true;
    count(&it->done);
}

/* A batch of calls at a seat that is free. Mostly it ends early where the seat is between phases. */
static void visit(player *by, uint32_t number) {
    seat *at = &by->game->seats[number];
    for (uint64_t most = 1 + low(&by->random, 40); most > 0 && !at->is_done; most--) {
        if (at->calls == 0) {
            leave(by, number);
        } else {
            at->calls--;
            act(by, number);
        }
        if (at->status == LIKES_BETWEEN && !one_in(&by->random, 4))
            return;
    }
}

/* A range of pages: mostly one that is there, and sometimes empty or too long. */
static void draw_range(const record *it, uint64_t *random, uint32_t *from, size_t *length) {
    uint64_t longest = it->pages > MANY_PAGES && !one_in(random, 16) ? MANY_PAGES : it->pages + 1;
    *from = (uint32_t)below(random, it->pages + 2);
    *length = low(random, longest);
    if (!one_in(random, 8) && *from <= it->pages && *length > it->pages - *from)
        *length = it->pages - *from;
}

/* Proposes pages: none, one, some, 64, or more than that. There may be marked ones among them, doubled ones, and
 * numbers of no page. */
static void propose_some(game *it, uint64_t *random) {
    enum { MOST = 80 };
    uint32_t pages[MOST];
    const size_t lengths[] = {0, 1, 1, low(random, 8), low(random, LIKES_MAX_SPLIT), LIKES_MAX_SPLIT,
                              LIKES_MAX_SPLIT + 1, LIKES_MAX_SPLIT + below(random, MOST - LIKES_MAX_SPLIT + 1)};
    size_t length = lengths[below(random, 8)];
    for (size_t n = 0; n < length; n++) {
        pages[n] = it->record.stock[low(random, STOCK)];
        if (one_in(random, 8))
            pages[n] = draw_page(&it->record, random);
        if (one_in(random, 16))
            pages[n] = one_in(random, 2) ? (uint32_t)it->record.pages : (uint32_t)drawn(random);
        if (n > 0 && one_in(random, 16))
            pages[n] = pages[below(random, n)];
    }
    propose(it, pages, length);
}

/* Has the counts of a range written, and sometimes those of all pages, by ranges that meet. */
static void take_counts(game *it, uint64_t *random, ranged *write) {
    uint32_t from;
    size_t length;
    draw_range(&it->record, random, &from, &length);
    bool is_told = write_counts(it, write, from, length) == LIKES_COUNTED;
    if (!is_told || (it->record.pages > MANY_PAGES && !one_in(random, 32)))
        return;
    for (from = 0; from < it->record.pages; from += (uint32_t)length) {
        length = 1 + low(random, it->record.pages - from);
        write_counts(it, write, from, length);
    }
}

/* Asks each seat for the last likes of all its users. */
static void check_all_lasts(game *it) {
    uint32_t seats = it->record.options.seats, users = it->record.options.users;
    for (uint32_t i = 0; i < seats; i++) {
        pthread_mutex_lock(&it->seats[i].lock);
        check_lasts(it, i, 0, (users - i + seats - 1) / seats);
        pthread_mutex_unlock(&it->seats[i].lock);
    }
}

/* Ends a phase, has every seat answer, and then releases the next. A seat that was freed before it was gone never
 * answers. */
static void change_phase(game *it, const schedule *plan, uint64_t *random) {
    turn_driver(it, one_in(random, 4) ? LIKES_END : LIKES_END_IF_IT_SERVES);
    if (one_in(random, 4))
        propose_some(it, random);
    for (uint32_t i = 0; i < it->record.options.seats && it->is_ending; i++) {
        pthread_mutex_lock(&it->seats[i].lock);
        if (turn_seat(it, i) == LIKES_RUNS)
            fail(&it->record, "seat %u runs a phase that is ending", i);
        pthread_mutex_unlock(&it->seats[i].lock);
    }
    it->is_all_in = it->is_ending && !plan->is_abandoned;
    for (uint64_t times = below(random, 8); times > 5; times--)
        take_counts(it, random, likes_driver_snapshot);
    if (one_in(random, 4))
        check_all_lasts(it);
    turn_driver(it, LIKES_NO_END);
}

/* Makes turns and asks for counts while a seat runs the phase and can't answer it. */
static void hold_up(game *it, uint64_t *random) {
    uint32_t number = (uint32_t)below(random, it->record.options.seats);
    pthread_mutex_lock(&it->seats[number].lock);
    it->is_held_up = turn_seat(it, number) == LIKES_RUNS;
    for (int times = 0; times < 3; times++) {
        turn_driver(it, LIKES_END_IF_IT_SERVES);
        take_counts(it, random, one_in(random, 2) ? likes_driver_snapshot : likes_driver_last_counts);
    }
    it->is_held_up = false;
    pthread_mutex_unlock(&it->seats[number].lock);
}

/* What a thread does with the driver that it holds. It holds no seat. */
static void lead(game *it, const schedule *plan, uint64_t *random) {
    uint64_t choice = below(random, 64);
    bool is_split = it->record.phases_len % 2 == 0;
    bool may_end = below(random, 100) < plan->end_share || (plan->end_share == 0 && is_split);
    if (choice < 8 && it->record.moments_len < 256)
        take_counts(it, random, likes_driver_snapshot);
    else if (choice == 8)
        take_counts(it, random, likes_driver_last_counts);
    else if (choice == 9)
        turn_driver(it, 3 + (uint32_t)low(random, UINT32_MAX - 2));
    else if (choice < 14 && may_end)
        change_phase(it, plan, random);
    else if (choice == 14 && may_end)
        hold_up(it, random);
    else if (choice < 18)
        propose_some(it, random);
    else if (choice < 20)
        check_told(it, below(random, LIKES_MAX_SPLIT + 3));
    else
        turn_driver(it, !may_end ? LIKES_NO_END : one_in(random, 8) ? LIKES_END : LIKES_END_IF_IT_SERVES);
}

static void try_to_lead(game *it, const schedule *plan, uint64_t *random) {
    if (pthread_mutex_trylock(&it->driving) != 0)
        return;
    if (it->driver.at != NULL)
        lead(it, plan, random);
    pthread_mutex_unlock(&it->driving);
}

/* What a thread does in a round. */
static void *play(void *at) {
    player *it = (player *)at;
    uint32_t seats = it->game->record.options.seats;
    while (load(&it->game->done) < seats) {
        uint32_t number = (uint32_t)below(&it->random, seats);
        if (pthread_mutex_trylock(&it->game->seats[number].lock) == 0) {
            visit(it, number);
            pthread_mutex_unlock(&it->game->seats[number].lock);
        }
        if (it->plan->is_shared && one_in(&it->random, 4))
            try_to_lead(it->game, it->plan, &it->random);
        if (one_in(&it->random, 64))
            pause_for(&it->random, it->plan->longest);
    }
    return NULL;
}

/* Changes phases after random times, and makes the turns of seats whose lock is free, until all seats are done. */
static void drive(game *it, const schedule *plan, uint64_t *random) {
    uint64_t abandoned = clock_now() + 1000 * low(random, 20000);
    while (load(&it->done) < it->record.options.seats) {
        try_to_lead(it, plan, random);
        for (uint32_t i = 0; i < it->record.options.seats; i++) {
            if (one_in(random, 2) && pthread_mutex_trylock(&it->seats[i].lock) == 0) {
                turn_seat(it, i);
                pthread_mutex_unlock(&it->seats[i].lock);
            }
        }
        if (plan->is_abandoned && clock_now() > abandoned) {
            pthread_mutex_lock(&it->driving);
            likes_driver_free(&it->driver);
            pthread_mutex_unlock(&it->driving);
        }
        if (one_in(random, 64))
            pause_for(random, plan->longest);
    }
}

/* The last likes and counts, once all seats have left. */
static void finish(game *it, uint64_t *random) {
    check_all_lasts(it);
    if (likes_phase_now(&it->phase) != it->record.phases_len - 1)
        fail(&it->record, "the phase is reported as %llu at the end", (unsigned long long)likes_phase_now(&it->phase));
    if (it->driver.at == NULL || load(&it->gone) < it->record.options.seats)
        return;
    while (turn_driver(it, LIKES_END_IF_IT_SERVES) != LIKES_ENDED)
        continue;
    for (int times = 0; times < 3; times++)
        take_counts(it, random, times == 1 ? likes_driver_snapshot : likes_driver_last_counts);
    for (uint32_t from = 0; from < it->record.pages; from += WRITTEN)
        write_counts(it, likes_driver_last_counts, from,
                     it->record.pages - from < WRITTEN ? it->record.pages - from : WRITTEN);
    turn_driver(it, LIKES_END_IF_IT_SERVES);
}

/* Frees the seats that are left, the driver and the phase, in random order. */
static void free_all(game *it, uint64_t *random) {
    uint32_t order[LIKES_MAX_SEATS + 2], seats = it->record.options.seats;
    for (uint32_t i = 0; i < seats + 2; i++) {
        uint32_t at = (uint32_t)below(random, i + 1);
        order[i] = order[at];
        order[at] = i;
    }
    for (uint32_t i = 0; i < seats + 2; i++) {
        if (order[i] < seats)
            likes_seat_free(&it->seats[order[i]].handle);
        else if (order[i] == seats)
            likes_driver_free(&it->driver);
        else
            likes_phase_free(&it->phase);
    }
}

/* Draws marks: pages, no two alike, in random order. */
static void draw_marks(record *it, uint64_t *random) {
    uint64_t most = it->pages < LIKES_MAX_MARKS ? it->pages : LIKES_MAX_MARKS;
    uint64_t few = one_in(random, 4) ? most : low(random, most + 1);
    for (uint64_t tries = 0; it->marks_len < few && tries < 1000; tries++) {
        uint32_t page =
            (uint32_t)(one_in(random, 4) ? it->pages - 1 - low(random, it->pages) : below(random, it->pages));
        if (!is_marked(it, page))
            it->marks[it->marks_len++] = page;
    }
}

/* Draws the stock: any pages, pages that are near each other, or both. In some rounds its first page gets hot. */
static void draw_stock(record *it, uint64_t *random) {
    uint64_t near = below(random, it->pages), far = 1 + below(random, 4);
    for (size_t n = 0; n < STOCK; n++)
        it->stock[n] = (uint32_t)(below(random, 4) < far ? below(random, it->pages) : (near + n) % it->pages);
    it->rush = one_in(random, 4) ? (uint32_t)below(random, 16) : 0;
}

/* Draws last likes, or none, with which the service is opened. */
static void draw_lasts(record *it, uint64_t *random) {
    size_t users = it->options.users;
    it->last = (uint32_t *)malloc(users * sizeof *it->last);
    if (it->last == NULL)
        abort();
    memset(it->last, 0xff, users * sizeof *it->last);
    if (one_in(random, 2))
        return;
    it->last_len = users;
    for (size_t user = 0; user < users; user++)
        if (!one_in(random, 4))
            it->last[user] = (uint32_t)below(random, it->pages);
}

/* Draws numbers for an opening: mostly small ones, and sometimes the largest. */
static void draw_options(likes_options *to, uint64_t *random) {
    to->seats = 1 + (uint32_t)low(random, one_in(random, 4) ? LIKES_MAX_SEATS : 8);
    if (one_in(random, 16))
        to->seats = LIKES_MAX_SEATS;
    to->users = to->seats + (uint32_t)low(random, one_in(random, 16) ? 1000000 : 500);
    to->room = 1 + (uint32_t)low(random, one_in(random, 2) ? 4 : 300);
    if (one_in(random, 16))
        to->room = LIKES_MAX_ROOM;
    to->hot = one_in(random, 2) ? 0 : 1 + (uint32_t)low(random, 100);
}

static size_t draw_pages(uint64_t *random) {
    if (one_in(random, 32))
        return 1000000;
    if (one_in(random, 32))
        return 1 + low(random, 1000000);
    return one_in(random, 3) ? 1 + low(random, 4) : one_in(random, 2) ? 1 + low(random, 130) : 64 + low(random, 1000);
}

static void draw_record(record *it, uint64_t *random) {
    draw_options(&it->options, random);
    it->pages = draw_pages(random);
    it->counts = (uint64_t *)malloc(it->pages * sizeof *it->counts);
    if (it->counts == NULL)
        abort();
    for (size_t page = 0; page < it->pages; page++)
        it->counts[page] = one_in(random, 4) ? LIKES_MAX_COUNT : low(random, 1000000);
    draw_marks(it, random);
    draw_stock(it, random);
    draw_lasts(it, random);
    it->is_timed = one_in(random, 2);
    note_release(it, 0, 0);
}

/* Opens a service, and takes its handles. */
static void open_game(game *it, const schedule *plan, uint64_t *random) {
    record *of = &it->record;
    const uint32_t *lasts = of->last_len == 0 ? NULL : of->last;
    if (open_core(of->options, of->counts, of->pages, of->marks, of->marks_len, lasts, of->last_len, &it->driver))
        fail(of, "the service was not opened");
    if (likes_driver_take_phase(&it->driver, &it->phase) != LIKES_OK)
        fail(of, "the phase was not handed out");
    pthread_mutex_init(&it->driving, NULL);
    for (uint32_t i = 0; i < of->options.seats; i++) {
        seat *at = &it->seats[i];
        pthread_mutex_init(&at->lock, NULL);
        if (likes_driver_take_seat(&it->driver, &at->handle) != LIKES_OK)
            fail(of, "seat %u was not handed out", i);
        at->status = LIKES_RUNS;
        at->waits = (wait *)calloc(of->options.room, sizeof *at->waits);
        at->calls = (uint32_t)below(random, plan->calls);
        at->late_calls = (uint32_t)low(random, 20);
        at->returns = (uint32_t)low(random, 50);
        if (at->waits == NULL)
            abort();
    }
    it->asked.is_sampled = of->options.hot > 0;
    note_told(it);
    if (it->told_len != of->marks_len)
        fail(of, "%zu pages are reported as split, of which %zu are marked", it->told_len, of->marks_len);
    if (one_in(random, 2))
        propose_some(it, random);
}

static void close_game(game *it) {
    for (uint32_t i = 0; i < it->record.options.seats; i++) {
        const history *done = &it->record.histories[i];
        all_events += done->length;
        for (size_t n = 0; n < done->length; n++)
            all_waits += done->events[n].kind == WAITED;
        free(it->seats[i].waits);
        pthread_mutex_destroy(&it->seats[i].lock);
    }
    pthread_mutex_destroy(&it->driving);
    all_phases += it->record.phases_len;
    all_moments += it->record.moments_len;
    free_record(&it->record);
    rounds++;
}

static schedule draw_plan(const game *it, uint64_t *random) {
    static const uint32_t shares[] = {0, 2, 50, 100};
    schedule made = {.threads = 1 + (uint32_t)low(random, one_in(random, 8) ? MOST_THREADS : 12)};
    made.calls = 1 + (uint32_t)low(random, 1 + 20000 / (1 + it->record.options.seats / 4));
    made.longest = 1 + (uint32_t)low(random, 500);
    made.end_share = shares[one_in(random, 4) ? below(random, 4) : 3];
    made.is_shared = !one_in(random, 4);
    made.is_abandoned = one_in(random, 16);
    return made;
}

static void play_round(uint64_t seed) {
    static game it;
    static player players[MOST_THREADS];
    uint64_t random = seed;
    memset(&it, 0, sizeof it);
    it.record.seed = seed;
    draw_record(&it.record, &random);
    schedule plan = draw_plan(&it, &random);
    open_game(&it, &plan, &random);
    for (uint32_t i = 0; i < plan.threads; i++) {
        players[i] = (player){&it, &plan, seed * 1000 + i, (uint64_t)i << 32, 0};
        if (pthread_create(&players[i].thread, NULL, play, &players[i]) != 0)
            fail(&it.record, "a thread was not started");
    }
    drive(&it, &plan, &random);
    for (uint32_t i = 0; i < plan.threads; i++)
        pthread_join(players[i].thread, NULL);
    finish(&it, &random);
    check_events(&it.record);
    free_all(&it, &random);
    close_game(&it);
}

int main(int count, char **words) {
    if (count != 3) {
        fputs("usage: hosts SEED SECONDS\n", stderr);
        return 2;
    }
    uint64_t seed = strtoull(words[1], NULL, 10);
    uint64_t until = clock_now() + strtoull(words[2], NULL, 10) * UINT64_C(1000000000);
    do
        play_round(seed++);
    while (clock_now() < until);
    if (all_proposed > 1000 && all_split < all_proposed / 2) {
        printf("of %llu pages that were proposed %llu were split\n", (unsigned long long)all_proposed,
               (unsigned long long)all_split);
        return 1;
    }
    if (rounds > 100 && load(&all_returns) == 0) {
        puts("no seat came back");
        return 1;
    }
    printf("%llu rounds held, with %llu events, %llu phases, %llu looks that waited, %llu ranges of counts, %llu pages "
           "that were proposed, of which %llu were split, %llu that were found, and %u returns\n",
           (unsigned long long)rounds, (unsigned long long)all_events, (unsigned long long)all_phases,
           (unsigned long long)all_waits, (unsigned long long)all_moments, (unsigned long long)all_proposed,
           (unsigned long long)all_split, (unsigned long long)all_found, load(&all_returns));
    return 0;
}
