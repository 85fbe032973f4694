/* Seats that retire and come back, 10,000,000 times on one thread: each answer must be that of a model.
 *
 * usage: back SEED RETURNS
 *
 * The services have 1 to 64 seats and one page, which is marked. On one thread each call has one right answer. It exits
 * with status 1 at the first wrong one. */
#include "harness.h"

#include <inttypes.h>

typedef struct {
    likes_seat handle;
    uint32_t status; /* LIKES_RUNS, LIKES_BETWEEN or LIKES_GONE */
    uint64_t phase;  /* that it runs or has answered */
    uint64_t slice;
} seat;

static struct {
    likes_driver driver;
    seat seats[LIKES_MAX_SEATS];
    uint32_t seats_len;
    uint64_t phase, count;
    bool is_ending;
} it;

static uint64_t state, returns, refused, calls;

static void expect(uint64_t got, uint64_t right, const char *what) {
    calls++;
    if (got == right)
        return;
    printf("call %" PRIu64 ", phase %" PRIu64 ": %s is %" PRIu64 ", not %" PRIu64 "\n", calls, it.phase, what, got,
           right);
    exit(1);
}

/* What a look at the phase word makes a seat do. A retiring one leaves a joined phase. */
static uint32_t move(seat *at, bool retires) {
    if (at->status == LIKES_BETWEEN && at->phase < it.phase) {
        at->phase = it.phase;
        at->status = LIKES_RUNS;
    }
    if (at->status != LIKES_RUNS)
        return at->status;
    if (retires && at->phase % 2 == 0) {
        at->status = LIKES_GONE;
    } else if (it.is_ending) {
        it.count += at->slice;
        at->slice = 0;
        at->status = LIKES_BETWEEN;
    }
    return at->status;
}

static void come_back(seat *at) {
    if (at->status != LIKES_GONE) {
        expect(likes_seat_come_back(&at->handle), move(at, false), "a return of a seat that is there");
        return;
    }
    if (it.is_ending) {
        refused++;
        expect(likes_seat_come_back(&at->handle), LIKES_BETWEEN, "a return into a phase that is ending");
        return;
    }
    returns++;
    at->status = LIKES_RUNS;
    at->phase = it.phase;
    expect(likes_seat_come_back(&at->handle), LIKES_RUNS, "a return");
}

static void like(seat *at) {
    uint32_t number = (uint32_t)(at - it.seats), status = move(at, false);
    if (status == LIKES_RUNS) {
        status = LIKES_LIKED;
        *(at->phase % 2 == 1 ? &at->slice : &it.count) += 1;
    }
    expect(likes_seat_like(&at->handle, number, 0), status, "a like");
}

static void glance(seat *at) {
    uint32_t number = (uint32_t)(at - it.seats), status = move(at, false);
    likes_answer answer;
    uint32_t shown = at->phase % 2 == 1 ? LIKES_GLIMPSED : LIKES_SEEN;
    expect(likes_seat_glance(&at->handle, number, 0, &answer), status == LIKES_RUNS ? shown : status, "a glance");
    if (status == LIKES_RUNS)
        expect(answer.count, it.count + at->slice, "a count");
}

static void call_seat(seat *at) {
    switch (below(&state, 8)) {
    case 0:
    case 1:
        like(at);
        break;
    case 2:
        glance(at);
        break;
    case 3:
        expect(likes_seat_turn(&at->handle), move(at, false), "a turn");
        break;
    case 4:
        expect(likes_seat_retire(&at->handle), move(at, true), "a retirement");
        break;
    case 5:
        expect(likes_seat_phase(&at->handle), at->status == LIKES_GONE ? 0 : at->phase, "a seat's phase");
        break;
    default:
        come_back(at);
    }
}

/* Whether all seats are gone, or have answered the phase or are gone. */
static bool are_all(bool or_in) {
    for (uint32_t i = 0; i < it.seats_len; i++) {
        const seat *at = &it.seats[i];
        if (at->status != LIKES_GONE && !(or_in && at->status == LIKES_BETWEEN && at->phase == it.phase))
            return false;
    }
    return true;
}

static uint32_t drive(uint32_t end) {
    if (it.is_ending) {
        if (!are_all(true))
            return LIKES_NOT_ALL_IN;
        it.is_ending = false;
        it.phase++;
        return LIKES_RELEASED;
    }
    bool are_gone = are_all(false);
    if (end != LIKES_NO_END && !(are_gone && it.phase % 2 == 0)) {
        it.is_ending = true;
        return LIKES_ANNOUNCED;
    }
    return are_gone ? LIKES_ENDED : LIKES_GOES_ON;
}

static void call_driver(void) {
    uint64_t count;
    if (below(&state, 8) == 0) {
        bool is_moment = it.is_ending && it.phase % 2 == 0 && are_all(true);
        expect(likes_driver_snapshot(&it.driver, 0, &count, 1), is_moment ? LIKES_COUNTED : LIKES_NO_MOMENT,
             "a snapshot");
        if (is_moment)
            expect(count, it.count, "a snapshot's count");
        return;
    }
    uint32_t end = (uint32_t)below(&state, 3);
    expect(likes_driver_turn(&it.driver, end), drive(end), "the driver's turn");
}

static void open_service(void) {
    memset(&it, 0, sizeof it);
    it.seats_len = 1 + (uint32_t)below(&state, 1 + below(&state, LIKES_MAX_SEATS));
    it.count = below(&state, 100);
    const uint32_t mark = 0;
    const likes_options options = {.seats = it.seats_len, .users = it.seats_len, .room = 1};
    expect(open_core(options, &it.count, 1, &mark, 1, NULL, 0, &it.driver), LIKES_OK, "an opening");
    for (uint32_t i = 0; i < it.seats_len; i++) {
        expect(likes_driver_take_seat(&it.driver, &it.seats[i].handle), LIKES_OK, "a seat's handing out");
        it.seats[i].status = LIKES_RUNS;
    }
}

/* All leave, and the last counts end the service: nobody comes back. */
static void close_service(void) {
    uint64_t count;
    while (!are_all(false) || it.phase % 2 == 1 || it.is_ending) {
        for (uint32_t i = 0; i < it.seats_len; i++)
            expect(likes_seat_retire(&it.seats[i].handle), move(&it.seats[i], true), "a last retirement");
        expect(likes_driver_turn(&it.driver, LIKES_END), drive(LIKES_END), "a last turn");
    }
    expect(likes_driver_last_counts(&it.driver, 0, &count, 1), LIKES_COUNTED, "the last counts");
    expect(count, it.count, "the last count");
    for (uint32_t i = 0; i < it.seats_len; i++) {
        expect(likes_seat_come_back(&it.seats[i].handle), LIKES_BETWEEN, "a return after the end");
        likes_seat_free(&it.seats[i].handle);
    }
    likes_driver_free(&it.driver);
}

int main(int count, char **words) {
    if (count != 3) {
        fputs("usage: back SEED RETURNS\n", stderr);
        return 2;
    }
    state = strtoull(words[1], NULL, 10);
    uint64_t most = strtoull(words[2], NULL, 10);
    while (returns < most) {
        open_service();
        for (uint64_t times = below(&state, 1 + below(&state, 10000000)); times > 0 && returns < most; times--) {
            if (below(&state, 1 + it.seats_len) == 0)
                call_driver();
            else
                call_seat(&it.seats[below(&state, it.seats_len)]);
        }
        close_service();
    }
    printf("%" PRIu64 " returns held, and %" PRIu64 " that were refused, in %" PRIu64 " calls\n", returns, refused, calls);
    return 0;
}
