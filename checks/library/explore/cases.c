/* The cases: two seats, and up to three threads beside the driver's. The first ones are a wake-up each, by itself, in
 * every order; the others are the service's, with up to two threads that are stopped while they could go on. */
#include "explore.h"

enum { PERIOD = 10000000, PAGES = 2, USERS = 4, US = 1000, MS = 1000000 };

static likes_answer answers[3];

static void open_with(uint32_t room, bool is_split) {
    static const uint32_t marks[1];
    likes_options options = {.pages = PAGES, .marks = is_split ? marks : NULL, .marks_len = is_split, .users = USERS,
                             .seats = 2, .room = room, .hot = LIKES_NO_HOT, .period_us = PERIOD / 1000};
    if (likes_service_open(&options, &explored) != LIKES_OK)
        fail("no service was opened");
}

/* Until a split phase has just begun. */
static void go_to_split(void) {
    while (explored->released % 2 == 0 || explored->is_ending || explored->due < model_time() + PERIOD / 3) {
        likes_service_like(explored, 0, 1);
        likes_service_like(explored, 1, 1);
        nap(PERIOD / 8);
    }
}

/* In a split phase. A look that waits takes half of the room. */
static void split(void) {
    open_with(2, true);
    go_to_split();
}

/* The same, with room for more. */
static void roomy(void) {
    open_with(8, true);
    go_to_split();
}

/* In the last split phase: no page is split in the next. */
static void go_to_last(uint32_t room) {
    const uint32_t page = 0;
    open_with(room, false);
    likes_service_propose(explored, &page, 1);
    go_to_split();
    likes_client_propose(&inner_member_of(explored)->client, &page, 0);
}

static void last_split(void) {
    go_to_last(8);
}

/* The same, where a look that waits takes half of the room. */
static void last_early(void) {
    go_to_last(2);
}

/* Just before the phase is due. */
static void due(void) {
    split();
    nap(explored->due - model_time() - US);
}

/* At rest. */
static void rest(void) {
    open_with(2, true);
    nap(10 * PERIOD);
    if (!explored->is_resting)
        fail("it doesn't rest");
}

/* Nothing is split, and after the next round the service may rest. */
static void quiet(void) {
    open_with(2, false);
    likes_service_like(explored, 0, 1);
    while (explored->quiet < 1 || explored->is_used)
        nap(100 * US);
    nap(explored->due - model_time() - US);
}

/* Nothing is split, and the service has rested again and again, for less than a period each time. */
static void rests(void) {
    open_with(2, false);
    for (int times = 0; times < 8; times++) {
        likes_service_like(explored, 0, 1);
        nap(PERIOD / 2);
    }
}

/* All seats have left. */
static void gone(void) {
    split();
    likes_service_retire_seat(explored, 0);
    likes_service_retire_seat(explored, 1);
}

/* One seat has left. */
static void half_gone(void) {
    split();
    likes_service_retire_seat(explored, 0);
    go_to_split();
}

/* Both looks for which a seat has room wait there. */
static void full(void) {
    likes_answer answer;
    open_with(2, true);
    go_to_split();
    inner_member *member = inner_member_of(explored);
    likes_client_look(&member->client, 0, 0, 0, 1, &answer);
    likes_client_look(&member->client, 0, 0, 0, 2, &answer);
    explored->seat[0].hosts = 2;
}

/* A thread's member is made before its calls. */
static inner_member *begin(uint32_t user) {
    inner_member *member = inner_member_of(explored);
    uint32_t page;
    if (user < USERS)
        likes_service_last(explored, user, &page);
    ready();
    return member;
}

/* The wake-ups. */

static void hold(void) {
    inner_member *member = begin(USERS);
    inner_lock_until(member, &explored->seat[0], INNER_NEVER);
    inner_unlock(member, &explored->seat[0]);
}

static void hold_late(void) {
    inner_member *member = begin(USERS);
    if (inner_lock_until(member, &explored->seat[0], model_time()))
        inner_unlock(member, &explored->seat[0]);
}

static void leave_work(void) {
    inner_member *member = begin(USERS);
    explored->work = explored->all;
    inner_work(member);
}

static void turn(void) {
    inner_turns(begin(USERS));
}

static void await_phase(void) {
    uint64_t phase = explored->released;
    inner_await_phase(begin(USERS), phase, INNER_NEVER);
}

static void stir(void) {
    inner_member *member = begin(USERS);
    explore_mutex_lock(&explored->turning);
    inner_stir(member);
}

/* The thread's call has missed phases, and waits. */
static inner_member *miss(void) {
    inner_member *member = begin(USERS);
    member->is_waiting = true;
    member->misses = 8;
    __atomic_fetch_add(&explored->starving, 1, __ATOMIC_SEQ_CST);
    return member;
}

/* A look whose thread has missed phases, and now finds no room in one. */
static void look_after_misses(void) {
    inner_member *member = miss();
    uint32_t status = LIKES_NO_ROOM;
    begin_call("a look after misses", 2 * PERIOD);
    while (inner_told(member, &explored->seat[0], INNER_NEVER, status) == INNER_AGAIN)
        status = likes_client_look(&member->client, 0, 0, 0, 3, &answers[0]);
    end_call();
}

/* A like whose thread has missed phases, and now finds its seat busy. */
static void like_after_misses(void) {
    inner_member *member = miss();
    uint32_t status = LIKES_BUSY;
    while (inner_told(member, &explored->seat[0], INNER_NEVER, status) == INNER_AGAIN)
        status = likes_client_like(&member->client, 0, 0, 1);
}

/* A thread holds its seat, and calls it, until a look of its own is found. */
static void hold_until_found(void) {
    likes_answer answer;
    likes_found found;
    begin(0);
    begin_call("a look of a held seat", 2 * PERIOD);
    likes_seat *seat = likes_service_lock(explored, 0);
    if (likes_seat_look(seat, 0, 0, 7, &answer) == LIKES_WAITS)
        while (!likes_seat_take_found(seat, &found)) {
            likes_seat_turn(seat);
            nap(PERIOD / 4);
        }
    likes_service_unlock(explored, 0);
    end_call();
}

/* The service. */

static void like(uint32_t user, uint32_t page, uint64_t most) {
    begin_call("like", most);
    if (likes_service_like(explored, user, page) != LIKES_LIKED)
        fail("a like was refused");
    end_call();
}

static void look(uint32_t user, uint64_t most) {
    begin_call("look", most);
    if (likes_service_look(explored, user, 0, &answers[user]) != LIKES_SEEN)
        fail("a look was refused");
    end_call();
}

static void like_0(void) {
    begin(0);
    like(0, 1, 0);
}

static void like_1(void) {
    begin(1);
    like(1, 1, 0);
}

static void like_1_twice(void) {
    begin(1);
    like(1, 1, 0);
    like(1, 1, 0);
}

static void like_soon(void) {
    begin(USERS);
    nap(US);
    like(0, 1, 0);
}

/* A like in the next phase. */
static void like_0_later(void) {
    begin(USERS);
    nap(2 * PERIOD);
    like(0, 1, 0);
}

/* A like that sleeps until the phase ends, which waits for a seat that is held past its time. */
static void like_0_between(void) {
    begin(0);
    nap(PERIOD + PERIOD / 20);
    like(0, 1, PERIOD / 20);
}

static void look_0(void) {
    begin(0);
    look(0, 0);
}

static void look_1(void) {
    begin(1);
    look(1, 0);
}

/* A look that waits as long as its phase lasts. */
static void look_long(void) {
    begin(1);
    look(1, 2 * PERIOD);
}

static void look_within(void) {
    begin(0);
    begin_call("look_within", 5 * MS);
    likes_service_look_within(explored, 0, 0, 5000, &answers[0]);
    end_call();
}

static void last_1(void) {
    uint32_t page;
    begin(1);
    begin_call("last", 0);
    likes_service_last(explored, 1, &page);
    likes_service_last(explored, 1, &page);
    end_call();
}

static void tick(void) {
    begin(USERS);
    likes_service_tick(explored);
}

static void drive(void) {
    begin(1);
    likes_service_drive(explored);
}

static void seat_turns(void) {
    begin(1);
    likes_service_seat_turns(explored);
}

static void take_counts(void) {
    uint64_t counts[PAGES];
    begin(1);
    begin_call("counts", 0);
    if (likes_service_counts(explored, counts, PAGES) != LIKES_COUNTED)
        fail("there are no counts");
    end_call();
}

/* The same, where others hold the seats for half a period. */
static void take_counts_of_held(void) {
    uint64_t counts[PAGES];
    begin(1);
    begin_call("counts", 2 * PERIOD);
    if (likes_service_counts(explored, counts, PAGES) != LIKES_COUNTED)
        fail("there are no counts");
    end_call();
}

static void take_snapshot(uint64_t most) {
    uint64_t counts[PAGES];
    uint32_t lasts[USERS];
    begin_call("snapshot", most);
    if (likes_service_snapshot(explored, counts, PAGES, lasts, USERS) != LIKES_COUNTED)
        fail("there is no moment");
    end_call();
}

static void snapshot(void) {
    begin(1);
    take_snapshot(0);
}

/* It gives up, where a thread holds its seat and tries again and again between two phases. */
static void snapshot_or_none(void) {
    uint64_t counts[PAGES];
    uint32_t lasts[USERS];
    begin(1);
    begin_call("snapshot", 200 * MS);
    likes_service_snapshot(explored, counts, PAGES, lasts, USERS);
    end_call();
}

static void snapshot_of_held(void) {
    begin(1);
    take_snapshot(150 * MS);
}

static void split_pages(void) {
    uint32_t pages[PAGES];
    begin(1);
    begin_call("split_pages", 0);
    likes_service_split_pages(explored, pages, PAGES);
    end_call();
}

static void propose(void) {
    const uint32_t page = 1;
    begin(1);
    begin_call("propose", 0);
    likes_service_propose(explored, &page, 1);
    end_call();
}

static void retire_0(void) {
    begin(0);
    begin_call("retire_seat", 0);
    likes_service_retire_seat(explored, 0);
    end_call();
}

static void bring_back_0(void) {
    begin(0);
    begin_call("bring_back_seat", INNER_CHOICE_TIME);
    likes_service_bring_back_seat(explored, 0);
    end_call();
}

static void bring_back_1(void) {
    begin(1);
    begin_call("bring_back_seat", INNER_CHOICE_TIME);
    likes_service_bring_back_seat(explored, 1);
    end_call();
}

/* A row of a held seat, through a change of phases. */
static void row(void) {
    likes_request requests[2] = {{.user = 1, .page = 1}, {.tag = 5, .user = 1, .page = 0, .op = LIKES_LOOK}};
    likes_answer told[2];
    likes_found found;
    begin(1);
    begin_call("row", 0);
    likes_service_lock(explored, 1);
    if (likes_service_run(explored, 1, requests, 2, told) != 2)
        fail("a row stopped");
    likes_service_take_found(explored, 1, &found);
    likes_service_unlock(explored, 1);
    end_call();
}

/* A row at a seat that is held, which sleeps until the phase ends. */
static void row_0_between(void) {
    likes_request request = {.user = 0, .page = 1};
    likes_answer told;
    begin(USERS);
    likes_service_lock(explored, 0);
    nap(PERIOD + PERIOD / 20);
    likes_service_run(explored, 0, &request, 1, &told);
    likes_service_unlock(explored, 0);
}

/* The same seat meanwhile, which nobody else holds once this thread does. */
static void hold_0_alone(void) {
    const inner_member *member = begin(USERS);
    nap(PERIOD + PERIOD / 15);
    likes_service_lock(explored, 0);
    for (const inner_member *other = member->next; other != NULL; other = other->next)
        if (other->locked == &explored->seat[0])
            fail("two threads hold one seat");
    likes_service_unlock(explored, 0);
}

/* Rows of no request at a held seat, as long as looks wait. */
static void rows_of_none(void) {
    begin(USERS);
    begin_call("rows of none", 2 * PERIOD);
    likes_service_lock(explored, 0);
    for (uint64_t phase = explored->released; explored->released < phase + 2; nap(MS))
        likes_service_run(explored, 0, NULL, 0, NULL);
    likes_service_unlock(explored, 0);
    end_call();
}

/* Likes of a held seat, through a change of phases. The thread takes no found looks. */
static void row_of_likes(void) {
    likes_request requests[2] = {{.user = 1, .page = 1}, {.user = 1, .page = 1}};
    likes_answer told[2];
    begin(1);
    begin_call("row", 0);
    likes_service_lock(explored, 1);
    if (likes_service_run(explored, 1, requests, 2, told) != 2)
        fail("a row stopped");
    likes_service_unlock(explored, 1);
    end_call();
}

/* Looks of a held seat, which has no room for the last of them. */
static void row_of_looks(void) {
    likes_request requests[2] = {{.tag = 5, .user = 1, .op = LIKES_LOOK}, {.tag = 6, .user = 1, .op = LIKES_LOOK}};
    likes_answer told[2];
    likes_found found;
    begin(1);
    begin_call("row", PERIOD);
    likes_service_lock(explored, 1);
    likes_service_run(explored, 1, requests, 2, told);
    while (likes_service_take_found(explored, 1, &found))
        ;
    likes_service_unlock(explored, 1);
    end_call();
}

/* A seat that is held, and called by its handle. */
static void held_calls(void) {
    begin(1);
    likes_seat *seat = likes_service_lock(explored, 1);
    likes_seat_like(seat, 1, 1);
    likes_seat_turn(seat);
    likes_service_unlock(explored, 1);
}

/* A seat that is held, and called until a like is counted after some time. */
static void hold_and_try(void) {
    uint64_t until = model_time() + 2 * PERIOD;
    likes_found found;
    begin(0);
    likes_seat *seat = likes_service_lock(explored, 0);
    while (likes_seat_like(seat, 0, 1) != LIKES_LIKED || model_time() < until) {
        likes_seat_take_found(seat, &found);
        nap(MS);
    }
    likes_service_unlock(explored, 0);
}

/* Seats that are held without a call: one for nearly a tenth of a second, and then the other one shortly. */
static void hold_long(void) {
    begin(0);
    likes_service_lock(explored, 0);
    nap(97 * MS);
    likes_service_unlock(explored, 0);
}

/* A seat that is held until the driver's thread has waited for it for longer than a period. */
static void hold_past_due(void) {
    begin(USERS);
    likes_service_lock(explored, 1);
    nap(PERIOD + PERIOD / 10);
    likes_service_unlock(explored, 1);
}

/* Seats that have left, each held for half a period. */
static void hold_gone(uint32_t number) {
    begin(number);
    likes_service_lock(explored, number);
    nap(PERIOD / 2);
    likes_service_unlock(explored, number);
}

static void hold_gone_0(void) {
    hold_gone(0);
}

static void hold_gone_1(void) {
    hold_gone(1);
}

static void hold_soon(void) {
    begin(1);
    nap(95 * MS);
    likes_service_lock(explored, 1);
    nap(20 * MS);
    likes_service_unlock(explored, 1);
}

static void hold_tick(void) {
    begin(USERS);
    likes_service_lock(explored, 1);
    likes_service_tick(explored);
    likes_service_unlock(explored, 1);
}

/* How many likes writers have handed over. */
static uint64_t handed_over(void) {
    likes_statistics told;
    likes_service_statistics(explored, &told);
    return told.likes;
}

/* A row that is kept while the service rests is handed over by the writer's next call. */
static void writer_through_rest(void) {
    likes_writer *writer = NULL;
    begin(0);
    likes_writer_open(explored, &writer);
    nap(US);
    likes_writer_like(writer, 0, 1);
    uint64_t before = handed_over();
    nap(10 * PERIOD);
    likes_writer_like(writer, 0, 1);
    if (handed_over() == before)
        fail("a row is kept through a rest");
    likes_writer_close(writer);
}

/* The same in a phase that goes on, for longer than a period. */
static void writer_for_long(void) {
    likes_writer *writer = NULL;
    begin(0);
    likes_writer_open(explored, &writer);
    likes_writer_like(writer, 0, 1);
    uint64_t before = handed_over();
    nap(PERIOD + 2 * INNER_SPIN_TIME);
    likes_writer_like(writer, 0, 1);
    if (handed_over() == before)
        fail("a row is kept for longer than a period");
    likes_writer_close(writer);
}

/* The same where the service doesn't rest, for other calls are made. */
static void writer_beside_likes(void) {
    likes_writer *writer = NULL;
    uint64_t singles = 0;
    begin(0);
    likes_writer_open(explored, &writer);
    likes_writer_like(writer, 0, 1);
    uint64_t before = handed_over();
    for (; singles * (PERIOD / 8) <= PERIOD; singles++) {
        likes_service_like(explored, 1, 1);
        nap(PERIOD / 8);
    }
    likes_writer_like(writer, 0, 1);
    if (handed_over() == before + singles)
        fail("a row is kept for longer than a period");
    likes_writer_close(writer);
}

static void stop_now(void) {
    begin(USERS);
    begin_call("stop", 0);
    likes_service_retire(explored);
    end_call();
}

static void stop(void) {
    begin(USERS);
    nap(US);
    stop_now();
}

const explore_case explore_cases[] = {
    {"seat", rest, {hold, hold}, -1, true, NULL},
    {"seat-late", rest, {hold, hold_late}, -1, true, NULL},
    {"seat-three", rest, {hold, hold, hold}, 3, true, NULL},
    {"work", rest, {hold, leave_work}, -1, true, NULL},
    {"work-two", rest, {leave_work, leave_work}, -1, true, NULL},
    {"wish", rest, {turn, turn}, -1, true, NULL},
    {"wish-three", rest, {turn, turn, turn}, 3, true, NULL},
    {"phase", split, {await_phase, stir}, 3, true, NULL},
    {"rest", quiet, {like_soon}, -1, false, NULL},
    {"misses", full, {look_after_misses}, 2, false, NULL},
    {"misses-held", roomy, {like_after_misses, hold_until_found}, 1, false, NULL},

    {"early", split, {look_0, like_1}, 2, false, NULL},
    {"early-last", split, {look_0, last_1}, 2, false, NULL},
    {"early-likes", split, {look_0, like_1, like_1_twice}, 1, false, NULL},
    {"early-looks", split, {look_0, look_1}, 2, false, NULL},
    {"early-row", split, {look_0, row}, 2, false, NULL},
    {"early-looks-row", split, {look_1, row_of_looks}, 2, false, NULL},
    {"early-within", split, {look_within, like_1}, 2, false, NULL},
    {"early-drive", split, {look_0, drive}, 2, false, NULL},
    {"early-turns", split, {look_0, seat_turns}, 2, false, NULL},
    {"early-held", split, {look_0, held_calls}, 2, false, NULL},
    {"early-none", split, {look_long, rows_of_none}, 1, false, NULL},
    {"early-counts", split, {look_0, take_counts}, 2, false, NULL},
    {"early-propose", split, {look_0, propose}, 2, false, NULL},
    {"early-pages", split, {look_0, split_pages}, 2, false, NULL},
    {"long", roomy, {look_long, like_1}, 2, false, NULL},
    {"last-split", last_split, {look_long, like_1}, 2, false, NULL},
    {"last-row", last_early, {look_1, row_of_likes}, 2, false, NULL},
    {"held-two", last_split, {hold_past_due, row_0_between, hold_0_alone}, 0, false, NULL},
    {"last-held", last_split, {hold_past_due, like_0_between}, 1, false, NULL},
    {"due", due, {tick, like_1}, 2, false, NULL},
    {"due-held", due, {hold_past_due, like_0_later}, 1, false, NULL},
    {"due-row", due, {tick, row}, 2, false, NULL},
    {"counts", roomy, {take_counts, like_1}, 2, false, NULL},
    {"counts-two", roomy, {take_counts, take_counts}, 2, false, NULL},
    {"counts-row", roomy, {take_counts, row}, 2, false, NULL},
    {"counts-drive", roomy, {take_counts, drive}, 2, false, NULL},
    {"snapshot", roomy, {snapshot, like_1}, 2, false, NULL},
    {"snapshot-row", roomy, {snapshot, row}, 2, false, NULL},
    {"snapshot-between", roomy, {snapshot_or_none, hold_and_try}, 0, false, NULL},
    {"snapshot-held", roomy, {snapshot_of_held, hold_long, hold_soon}, 0, false, NULL},
    {"rest-like", rest, {like_0, like_1}, 2, false, NULL},
    {"rest-look", rest, {like_0, look_long}, 2, false, NULL},
    {"rest-tick", rest, {like_0, tick}, 2, false, NULL},
    {"rest-held", rest, {like_0, hold_tick}, 2, false, NULL},
    {"rest-propose", rest, {propose, tick}, 2, false, NULL},
    {"quiet", quiet, {like_soon, tick}, 2, false, NULL},
    {"quiet-held", quiet, {hold_tick, like_soon}, 2, false, NULL},
    {"writer-rest", rest, {writer_through_rest}, 2, false, NULL},
    {"writer-quiet", quiet, {writer_through_rest}, 1, false, NULL},
    {"writer-rests", rests, {writer_beside_likes}, 0, false, NULL},
    {"writer-long", rest, {writer_for_long, like_1}, 1, false, NULL},
    {"retire", split, {retire_0, like_1}, 2, false, NULL},
    {"retire-two", split, {retire_0, look_long}, 1, false, NULL},
    {"back", gone, {bring_back_0, bring_back_1}, 2, false, NULL},
    {"back-half", half_gone, {bring_back_0, like_1}, 2, false, NULL},
    {"gone-counts", gone, {take_counts, bring_back_0}, 1, false, NULL},
    {"gone-held", gone, {take_counts_of_held, hold_gone_0, hold_gone_1}, 1, true, NULL},
    {"stop", split, {stop}, 2, false, NULL},
    {"stop-quiet", quiet, {stop}, 2, false, NULL},
    {"stop-counts", quiet, {stop_now, take_counts}, 2, false, NULL},
    {NULL, NULL, {NULL}, 0, false, NULL},
};
