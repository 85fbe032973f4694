/* The proved calls of include/likes.h and of library/proved.h in plain C: for an explorer of schedules, and to run the
 * service without the proved archive. The same calls and statuses, the same steps that
 * other threads can see: a seat and the driver stand each behind a word that is exchanged, and phases are one word,
 * which each call reads once.
 *
 * It finds no hot pages: marked and proposed ones are split. It takes memory by malloc alone. */
#include "../../../library/proved.h"

#include <stdlib.h>
#include <string.h>

/* The word of phases: how many seats aren't gone, how many of them have yet to answer, whether the phase is ending,
 * whether looks take half of a seat's room, whether last counts were written, and the phase. */
#define PRESENT UINT64_C(1)
#define MISSING (UINT64_C(1) << 8)
#define ENDING (UINT64_C(1) << 16)
#define HINT (UINT64_C(1) << 17)
#define OVER (UINT64_C(1) << 18)
#define PHASE (UINT64_C(1) << 19)

static uint64_t present_of(uint64_t word) {
    return word & 0xff;
}

static uint64_t missing_of(uint64_t word) {
    return word >> 8 & 0xff;
}

static uint64_t phase_of(uint64_t word) {
    return word / PHASE;
}

typedef struct stub_core stub_core;

typedef struct stub_seat {
    _Alignas(128) uint32_t lock; /* 0: nobody has the seat; atomic */
    uint32_t number, users;
    bool runs, is_gone;
    uint64_t phase;
    stub_core *core;
    uint32_t *lasts;
    uint64_t slices[LIKES_MAX_SPLIT]; /* likes of the present split phase, of each split page */
    likes_found *looks;               /* found ones, then those that wait, in a ring */
    uint32_t first, found, waiting;
} stub_seat;

struct stub_core {
    uint64_t word;                         /* atomic */
    uint64_t *counts;                      /* each is atomic */
    uint32_t split[LIKES_MAX_SPLIT], many; /* changed while a joined phase is ending and all seats are in */
    _Alignas(128) uint32_t lock;           /* 0: nobody has the driver; atomic */
    uint32_t seats, users, room;
    size_t pages;
    uint32_t marks[LIKES_MAX_SPLIT], marked;
    uint32_t proposed[LIKES_MAX_SPLIT], asked; /* of the last call */
    uint32_t next[LIKES_MAX_SPLIT], nexts;     /* what the next split phase splits */
    uint32_t clients;                          /* how many are open, or how many handles; atomic */
    uint32_t taken;                            /* how many seats a host has taken for itself */
    bool has_phase;                            /* a host has taken the phase */
    stub_seat *all;
};

typedef struct stub_client {
    stub_core *core;
    uint64_t locked; /* a bit for each seat */
} stub_client;

/* Phase work */

static uint32_t slot_of(const stub_core *core, uint32_t page) {
    uint32_t slot = 0;
    while (slot < core->many && core->split[slot] != page)
        slot++;
    return slot;
}

static bool is_split(const stub_seat *seat, uint32_t page, uint32_t *slot) {
    *slot = seat->phase % 2 == 1 ? slot_of(seat->core, page) : seat->core->many;
    return seat->phase % 2 == 1 && *slot < seat->core->many;
}

static uint64_t count_of(const stub_core *core, uint32_t page) {
    return __atomic_load_n(&core->counts[page], __ATOMIC_SEQ_CST);
}

static likes_found *look_of(const stub_seat *seat, uint32_t place) {
    return &seat->looks[(seat->first + place) % seat->core->room];
}

static void find_all(stub_seat *seat) {
    for (; seat->waiting > 0; seat->waiting--) {
        likes_found *look = look_of(seat, seat->found++);
        look->ran = seat->phase;
        look->count = count_of(seat->core, look->page);
        look->last = seat->lasts[look->user / seat->core->seats];
    }
}

/* Adds the likes of a split phase to the counts. */
static void merge(stub_seat *seat) {
    stub_core *core = seat->core;
    for (uint32_t slot = 0; slot < core->many; slot++)
        if (seat->slices[slot] > 0) {
            __atomic_fetch_add(&core->counts[core->split[slot]], seat->slices[slot], __ATOMIC_SEQ_CST);
            seat->slices[slot] = 0;
        }
}

/* Enters the present phase, if the seat has left another: LIKES_RUNS or BETWEEN, and the word. */
static uint32_t enter(stub_seat *seat, uint64_t *word) {
    *word = __atomic_load_n(&seat->core->word, __ATOMIC_SEQ_CST);
    if (phase_of(*word) != seat->phase) {
        seat->phase = phase_of(*word);
        seat->runs = true;
        if (seat->phase % 2 == 0)
            find_all(seat);
    }
    return seat->runs ? LIKES_RUNS : LIKES_BETWEEN;
}

/* Does what the phase asks of a seat: LIKES_RUNS, BETWEEN or GONE. */
static uint32_t advance(stub_seat *seat) {
    uint64_t word;
    if (seat->is_gone)
        return LIKES_GONE;
    if (enter(seat, &word) == LIKES_BETWEEN || !(word & ENDING))
        return seat->runs ? LIKES_RUNS : LIKES_BETWEEN;
    if (seat->phase % 2 == 1)
        merge(seat);
    seat->runs = false;
    __atomic_fetch_sub(&seat->core->word, MISSING, __ATOMIC_SEQ_CST);
    return LIKES_BETWEEN;
}

static uint32_t retire(stub_seat *seat) {
    uint64_t word, next;
    if (seat->is_gone)
        return LIKES_GONE;
    if (enter(seat, &word) == LIKES_BETWEEN || seat->phase % 2 == 1)
        return advance(seat);
    do
        next = word - PRESENT - (word & ENDING ? MISSING : 0);
    while (!__atomic_compare_exchange_n(&seat->core->word, &word, next, false, __ATOMIC_SEQ_CST, __ATOMIC_SEQ_CST));
    seat->runs = false;
    seat->is_gone = true;
    return LIKES_GONE;
}

static uint32_t come_back(stub_seat *seat) {
    if (!seat->is_gone)
        return advance(seat);
    uint64_t word = __atomic_load_n(&seat->core->word, __ATOMIC_SEQ_CST);
    do
        if (word & (ENDING | OVER))
            return LIKES_BETWEEN;
    while (!__atomic_compare_exchange_n(&seat->core->word, &word, word + PRESENT, false, __ATOMIC_SEQ_CST,
                                        __ATOMIC_SEQ_CST));
    seat->phase = phase_of(word);
    seat->is_gone = false;
    seat->runs = true;
    return LIKES_RUNS;
}

/* Calls of a seat */

static uint32_t numbers_fault(const stub_seat *seat, uint32_t user, uint32_t page) {
    if (user >= seat->core->users)
        return LIKES_UNKNOWN_USER;
    if (user % seat->core->seats != seat->number)
        return LIKES_OTHER_SEAT;
    return page < seat->core->pages ? LIKES_OK : LIKES_UNKNOWN_PAGE;
}

static uint32_t fault_of(stub_seat *seat, uint32_t user, uint32_t page) {
    uint32_t status = advance(seat);
    return status == LIKES_RUNS ? numbers_fault(seat, user, page) : status;
}

static uint32_t tell(likes_answer *answer, uint32_t status, uint64_t count, uint32_t last) {
    *answer = (likes_answer){count, last, status};
    return status;
}

/* Likes at a seat that runs, with numbers that are right. */
static void count_like(stub_seat *seat, uint32_t user, uint32_t page) {
    uint32_t slot;
    if (is_split(seat, page, &slot))
        seat->slices[slot]++;
    else
        __atomic_fetch_add(&seat->core->counts[page], 1, __ATOMIC_SEQ_CST);
    seat->lasts[user / seat->core->seats] = page;
}

static uint32_t like(stub_seat *seat, uint32_t user, uint32_t page) {
    uint32_t fault = fault_of(seat, user, page);
    if (fault != LIKES_OK)
        return fault;
    count_like(seat, user, page);
    return LIKES_LIKED;
}

static void keep_look(stub_seat *seat, uint32_t user, uint32_t page, uint64_t tag) {
    likes_found *look = look_of(seat, seat->found + seat->waiting++);
    memset(look, 0, sizeof *look);
    look->tag = tag;
    look->asked = seat->phase;
    look->user = user;
    look->page = page;
    if (2 * seat->waiting >= seat->core->room)
        __atomic_fetch_or(&seat->core->word, HINT, __ATOMIC_SEQ_CST);
}

static uint32_t look(stub_seat *seat, uint32_t user, uint32_t page, uint64_t tag, likes_answer *answer) {
    uint32_t fault = fault_of(seat, user, page), slot;
    if (fault != LIKES_OK)
        return tell(answer, fault, 0, 0);
    if (!is_split(seat, page, &slot))
        return tell(answer, LIKES_SEEN, count_of(seat->core, page), seat->lasts[user / seat->core->seats]);
    if (seat->found + seat->waiting >= seat->core->room)
        return tell(answer, LIKES_NO_ROOM, 0, 0);
    keep_look(seat, user, page, tag);
    return tell(answer, LIKES_WAITS, 0, 0);
}

static uint32_t glance(stub_seat *seat, uint32_t user, uint32_t page, likes_answer *answer) {
    uint32_t fault = fault_of(seat, user, page), slot;
    if (fault != LIKES_OK)
        return tell(answer, fault, 0, 0);
    uint32_t last = seat->lasts[user / seat->core->seats];
    if (!is_split(seat, page, &slot))
        return tell(answer, LIKES_SEEN, count_of(seat->core, page), last);
    return tell(answer, LIKES_GLIMPSED, count_of(seat->core, page) + seat->slices[slot], last);
}

static uint32_t last(const stub_seat *seat, uint32_t user, uint32_t *page) {
    if (user >= seat->core->users)
        return LIKES_UNKNOWN_USER;
    if (user % seat->core->seats != seat->number)
        return LIKES_OTHER_SEAT;
    *page = seat->lasts[user / seat->core->seats];
    return LIKES_OK;
}

static uint32_t phase(const stub_seat *seat, uint64_t *to) {
    *to = seat->is_gone ? 0 : seat->phase;
    return LIKES_OK;
}

static uint32_t lasts(const stub_seat *seat, uint32_t from, uint32_t *pages, size_t length) {
    if (from > seat->users || length > seat->users - from)
        return LIKES_WRONG_RANGE;
    memcpy(pages, seat->lasts + from, length * sizeof *pages);
    return LIKES_OK;
}

static bool is_known(const likes_request *request) {
    return request->op <= LIKES_GLANCE && request->reserved == 0;
}

static uint32_t run_one(stub_seat *seat, const likes_request *request, likes_answer *answer) {
    if (!is_known(request))
        return tell(answer, LIKES_UNKNOWN_OP, 0, 0);
    if (request->op == LIKES_LIKE)
        return tell(answer, like(seat, request->user, request->page), 0, 0);
    return request->op == LIKES_LOOK ? look(seat, request->user, request->page, request->tag, answer)
                                     : glance(seat, request->user, request->page, answer);
}

static size_t run(stub_seat *seat, const likes_request *requests, size_t length, likes_answer *answers, size_t room) {
    for (size_t done = 0; done < length && done < room; done++) {
        uint32_t status = run_one(seat, &requests[done], &answers[done]);
        if (status == LIKES_BETWEEN || status == LIKES_NO_ROOM)
            return done;
    }
    return length < room ? length : room;
}

/* Likes of a row, with one look at the word. */
static uint32_t like_row(stub_seat *seat, const likes_pair *row, size_t length, size_t *counted) {
    uint32_t status = advance(seat);
    if (status != LIKES_RUNS)
        return status;
    for (*counted = 0; *counted < length; ++*counted) {
        uint32_t user = row[*counted].user, page = row[*counted].page, fault = numbers_fault(seat, user, page);
        if (fault != LIKES_OK)
            return fault;
        count_like(seat, user, page);
    }
    return LIKES_LIKED;
}

static uint32_t take_found(stub_seat *seat, likes_found *found) {
    if (seat->found == 0)
        return LIKES_NONE;
    *found = *look_of(seat, 0);
    seat->first = (seat->first + 1) % seat->core->room;
    seat->found--;
    return LIKES_OK;
}

/* Calls of the driver */

static bool has(const uint32_t *pages, uint32_t many, uint32_t page) {
    bool is_there = false;
    for (uint32_t i = 0; i < many; i++)
        is_there |= pages[i] == page;
    return is_there;
}

/* Takes the pages of the last proposal beside the marked ones. */
static void choose(stub_core *core) {
    core->nexts = core->marked;
    memcpy(core->next, core->marks, sizeof core->marks);
    for (uint32_t i = 0; i < core->asked && core->nexts < LIKES_MAX_SPLIT; i++)
        if (core->proposed[i] < core->pages && !has(core->next, core->nexts, core->proposed[i]))
            core->next[core->nexts++] = core->proposed[i];
}

static uint32_t release(stub_core *core, uint64_t word) {
    uint64_t next = (word & ~(ENDING | HINT)) + PHASE;
    if (phase_of(word) % 2 == 0) {
        core->many = core->nexts;
        memcpy(core->split, core->next, sizeof core->split);
    }
    __atomic_store_n(&core->word, next, __ATOMIC_SEQ_CST);
    return LIKES_RELEASED;
}

/* Whether a turn ends the phase. */
static bool ends(stub_core *core, uint64_t word, uint32_t end) {
    bool is_split = phase_of(word) % 2 == 1, is_asked = end != LIKES_NO_END || (is_split && (word & HINT));
    if (!is_asked || (!is_split && present_of(word) == 0))
        return false;
    if (is_split || core->nexts == 0)
        choose(core);
    return is_split || end == LIKES_END || core->nexts > 0;
}

static uint32_t drive(stub_core *core, uint32_t end) {
    if (end > LIKES_END)
        return LIKES_UNKNOWN_END;
    uint64_t word = __atomic_load_n(&core->word, __ATOMIC_SEQ_CST), next;
    if (word & OVER)
        return LIKES_ENDED;
    if (word & ENDING)
        return missing_of(word) > 0 ? (uint32_t)LIKES_NOT_ALL_IN : release(core, word);
    do
        if (!ends(core, word, end))
            return present_of(word) == 0 ? LIKES_ENDED : LIKES_GOES_ON;
        else
            next = (word | ENDING) + present_of(word) * MISSING;
    while (!__atomic_compare_exchange_n(&core->word, &word, next, false, __ATOMIC_SEQ_CST, __ATOMIC_SEQ_CST));
    return LIKES_ANNOUNCED;
}

static bool is_range(const stub_core *core, uint32_t from, size_t length) {
    return from <= core->pages && length <= core->pages - from;
}

static uint32_t write_counts(const stub_core *core, uint32_t from, uint64_t *counts, size_t length) {
    for (size_t i = 0; i < length; i++)
        counts[i] = count_of(core, from + (uint32_t)i);
    return LIKES_COUNTED;
}

static uint32_t snapshot(stub_core *core, uint32_t from, uint64_t *counts, size_t length) {
    uint64_t word = __atomic_load_n(&core->word, __ATOMIC_SEQ_CST);
    if (!is_range(core, from, length))
        return LIKES_WRONG_RANGE;
    if (!(word & ENDING) || (word & OVER) || missing_of(word) > 0 || phase_of(word) % 2 == 1)
        return LIKES_NO_MOMENT;
    return write_counts(core, from, counts, length);
}

static uint32_t last_counts(stub_core *core, uint32_t from, uint64_t *counts, size_t length) {
    uint64_t word = __atomic_load_n(&core->word, __ATOMIC_SEQ_CST);
    if (!is_range(core, from, length))
        return LIKES_WRONG_RANGE;
    do
        if (present_of(word) > 0 || phase_of(word) % 2 == 1)
            return LIKES_NOT_ENDED;
    while (!__atomic_compare_exchange_n(&core->word, &word, word | OVER, false, __ATOMIC_SEQ_CST, __ATOMIC_SEQ_CST));
    return write_counts(core, from, counts, length);
}

static uint32_t split_pages(const stub_core *core, uint32_t *pages, size_t length, size_t *written) {
    bool has_begun = __atomic_load_n(&core->word, __ATOMIC_SEQ_CST) >= PHASE;
    uint32_t many = has_begun ? core->many : core->marked;
    *written = many < length ? many : length;
    memcpy(pages, has_begun ? core->split : core->marks, *written * sizeof *pages);
    return LIKES_OK;
}

static uint32_t propose(stub_core *core, const uint32_t *pages, size_t length) {
    core->asked = length < LIKES_MAX_SPLIT ? (uint32_t)length : LIKES_MAX_SPLIT;
    memcpy(core->proposed, pages, core->asked * sizeof *pages);
    return LIKES_OK;
}

/* Locks */

static stub_client *client_of(const likes_client *client) {
    return (stub_client *)client->at;
}

static bool has_locked(const likes_client *client, const stub_seat *seat) {
    return client_of(client)->locked >> seat->number & 1;
}

/* Takes a seat that this client hasn't locked: LIKES_OK, BUSY, EMPTY or UNKNOWN_SEAT. */
static uint32_t take(likes_client *client, uint32_t number, stub_seat **seat) {
    if (client->at == NULL)
        return LIKES_EMPTY;
    if (number >= client_of(client)->core->seats)
        return LIKES_UNKNOWN_SEAT;
    *seat = &client_of(client)->core->all[number];
    if (has_locked(client, *seat))
        return LIKES_OK;
    return __atomic_exchange_n(&(*seat)->lock, 1, __ATOMIC_SEQ_CST) == 0 ? LIKES_OK : LIKES_BUSY;
}

/* Gives it back. A seat that is locked stays so, and is noted by the same store. */
static void give(likes_client *client, stub_seat *seat) {
    __atomic_store_n(&seat->lock, has_locked(client, seat), __ATOMIC_SEQ_CST);
}

static uint32_t take_driver(likes_client *client, stub_core **core) {
    if (client->at == NULL)
        return LIKES_EMPTY;
    *core = client_of(client)->core;
    return __atomic_exchange_n(&(*core)->lock, 1, __ATOMIC_SEQ_CST) == 0 ? LIKES_OK : LIKES_BUSY;
}

/* A call at a seat that is taken meanwhile, or at the driver. */
#define AT_SEAT(call)                                                                                                  \
    do {                                                                                                               \
        stub_seat *seat;                                                                                               \
        uint32_t status = take(client, number, &seat);                                                                 \
        if (status != LIKES_OK)                                                                                        \
            return status;                                                                                             \
        status = (call);                                                                                               \
        give(client, seat);                                                                                            \
        return status;                                                                                                 \
    } while (0)

#define AT_DRIVER(call)                                                                                                \
    do {                                                                                                               \
        stub_core *core;                                                                                               \
        uint32_t status = take_driver(client, &core);                                                                  \
        if (status != LIKES_OK)                                                                                        \
            return status;                                                                                             \
        status = (call);                                                                                               \
        __atomic_store_n(&core->lock, 0, __ATOMIC_SEQ_CST);                                                            \
        return status;                                                                                                 \
    } while (0)

/* An answer says what its call says. */
static uint32_t told(uint32_t status, likes_answer *answer) {
    if (status == LIKES_BUSY || status == LIKES_EMPTY || status == LIKES_UNKNOWN_SEAT)
        tell(answer, status, 0, 0);
    return status;
}

static uint32_t try_look(likes_client *client, uint32_t number, uint32_t user, uint32_t page, uint64_t tag,
                         likes_answer *answer) {
    AT_SEAT(look(seat, user, page, tag, answer));
}

static uint32_t try_glance(likes_client *client, uint32_t number, uint32_t user, uint32_t page, likes_answer *answer) {
    AT_SEAT(glance(seat, user, page, answer));
}

uint32_t likes_client_like(likes_client *client, uint32_t number, uint32_t user, uint32_t page) {
    AT_SEAT(like(seat, user, page));
}

uint32_t likes_client_look(likes_client *client, uint32_t number, uint32_t user, uint32_t page, uint64_t tag,
                           likes_answer *answer) {
    return told(try_look(client, number, user, page, tag, answer), answer);
}

uint32_t likes_client_glance(likes_client *client, uint32_t number, uint32_t user, uint32_t page,
                             likes_answer *answer) {
    return told(try_glance(client, number, user, page, answer), answer);
}

uint32_t likes_client_last(likes_client *client, uint32_t number, uint32_t user, uint32_t *page) {
    AT_SEAT(last(seat, user, page));
}

uint32_t likes_proved_client_lasts(likes_client *client, uint32_t number, uint32_t from, uint32_t *pages,
                                   size_t pages_len) {
    AT_SEAT(lasts(seat, from, pages, pages_len));
}

uint32_t likes_client_phase(likes_client *client, uint32_t number, uint64_t *to) {
    AT_SEAT(phase(seat, to));
}

uint32_t likes_proved_client_address(likes_client *client, uint32_t number, likes_address *to) {
    (void)client;
    (void)number;
    to->at = NULL;
    return LIKES_OK;
}

uint32_t likes_client_turn(likes_client *client, uint32_t number) {
    AT_SEAT(advance(seat));
}

uint32_t likes_client_retire(likes_client *client, uint32_t number) {
    AT_SEAT(retire(seat));
}

uint32_t likes_client_come_back(likes_client *client, uint32_t number) {
    AT_SEAT(come_back(seat));
}

uint32_t likes_client_take_found(likes_client *client, uint32_t number, likes_found *found) {
    AT_SEAT(take_found(seat, found));
}

uint32_t likes_proved_client_like_row(likes_client *client, uint32_t number, const likes_pair *row, size_t row_len,
                                      size_t *counted) {
    *counted = 0;
    AT_SEAT(like_row(seat, row, row_len, counted));
}

size_t likes_proved_client_run(likes_client *client, uint32_t number, const likes_request *requests,
                               size_t requests_len, likes_answer *answers, size_t answers_len) {
    stub_seat *seat;
    uint32_t status = take(client, number, &seat);
    size_t done;
    if (status != LIKES_OK) {
        if (answers_len > 0 && (requests_len > 0 || status == LIKES_EMPTY))
            tell(&answers[0], status, 0, 0);
        return 0;
    }
    done = run(seat, requests, requests_len, answers, answers_len);
    give(client, seat);
    return done;
}

uint32_t likes_client_lock(likes_client *client, uint32_t number) {
    stub_seat *seat;
    uint32_t status = take(client, number, &seat);
    if (status == LIKES_OK)
        client_of(client)->locked |= UINT64_C(1) << number;
    return status;
}

uint32_t likes_client_unlock(likes_client *client, uint32_t number) {
    stub_client *of = client_of(client);
    if (of == NULL)
        return LIKES_EMPTY;
    if (number >= of->core->seats)
        return LIKES_UNKNOWN_SEAT;
    if (!has_locked(client, &of->core->all[number]))
        return LIKES_OK;
    of->locked &= ~(UINT64_C(1) << number);
    give(client, &of->core->all[number]);
    return LIKES_OK;
}

uint32_t likes_client_drive(likes_client *client, uint32_t end) {
    AT_DRIVER(drive(core, end));
}

uint32_t likes_proved_client_snapshot(likes_client *client, uint32_t from, uint64_t *counts, size_t counts_len) {
    AT_DRIVER(snapshot(core, from, counts, counts_len));
}

uint32_t likes_proved_client_last_counts(likes_client *client, uint32_t from, uint64_t *counts, size_t counts_len) {
    AT_DRIVER(last_counts(core, from, counts, counts_len));
}

uint32_t likes_proved_client_split_pages(likes_client *client, uint32_t *pages, size_t pages_len, size_t *written) {
    *written = 0;
    AT_DRIVER(split_pages(core, pages, pages_len, written));
}

uint32_t likes_proved_client_propose(likes_client *client, const uint32_t *pages, size_t pages_len) {
    AT_DRIVER(propose(core, pages, pages_len));
}

/* Opening and closing */

static void *zeros(size_t size) {
    void *made = malloc(size > 0 ? size : 1);
    if (made != NULL)
        memset(made, 0, size);
    return made;
}

static void free_core(stub_core *core) {
    for (uint32_t i = 0; core->all != NULL && i < core->seats; i++) {
        free(core->all[i].lasts);
        free(core->all[i].looks);
    }
    free(core->all);
    free(core->counts);
    free(core);
}

static bool make_seat(stub_core *core, uint32_t number, const uint32_t *all_lasts, size_t lasts_len) {
    stub_seat *seat = &core->all[number];
    seat->core = core;
    seat->number = number;
    seat->runs = true;
    seat->users = core->users / core->seats + (number < core->users % core->seats);
    seat->lasts = (uint32_t *)zeros(seat->users * sizeof *seat->lasts);
    seat->looks = (likes_found *)zeros(core->room * sizeof *seat->looks);
    if (seat->lasts == NULL || seat->looks == NULL)
        return false;
    for (size_t i = 0; i < seat->users; i++)
        seat->lasts[i] = lasts_len > 0 ? all_lasts[i * core->seats + number] : LIKES_NO_PAGE;
    return true;
}

static bool make_seats(stub_core *core, const uint32_t *all_lasts, size_t lasts_len) {
    if (posix_memalign((void **)&core->all, 128, core->seats * sizeof *core->all) != 0)
        return false;
    memset(core->all, 0, core->seats * sizeof *core->all);
    for (uint32_t i = 0; i < core->seats; i++)
        if (!make_seat(core, i, all_lasts, lasts_len))
            return false;
    return true;
}

static bool are_marks(const uint32_t *marks, size_t length, size_t pages) {
    bool are = length <= LIKES_MAX_MARKS;
    for (size_t i = 0; are && i < length; i++)
        are = marks[i] < pages && !has(marks, (uint32_t)i, marks[i]);
    return are;
}

static bool are_counts(const uint64_t *counts, size_t pages) {
    bool are = true;
    for (size_t i = 0; i < pages; i++)
        are &= counts[i] <= LIKES_MAX_COUNT;
    return are;
}

static bool are_lasts(const uint32_t *pages_of, size_t length, uint32_t users, size_t pages) {
    bool are = length == 0 || length == users;
    for (size_t i = 0; are && i < length; i++)
        are = pages_of[i] < pages || pages_of[i] == LIKES_NO_PAGE;
    return are;
}

static uint32_t opening_fault(const likes_proved_options *of, const uint64_t *counts, size_t pages,
                              const uint32_t *marks, size_t marks_len, const uint32_t *all_lasts, size_t lasts_len) {
    for (size_t i = 0; i < 6; i++)
        if (of->reserved[i] != 0)
            return LIKES_WRONG_RESERVED;
    if (pages == 0 || pages > LIKES_MAX_PAGES)
        return LIKES_WRONG_PAGES;
    if (!are_marks(marks, marks_len, pages))
        return LIKES_WRONG_MARKS;
    if (!are_counts(counts, pages))
        return LIKES_WRONG_COUNT;
    if (of->seats == 0 || of->seats > LIKES_MAX_SEATS)
        return LIKES_WRONG_SEATS;
    if (of->users == 0)
        return LIKES_WRONG_USERS;
    if (!are_lasts(all_lasts, lasts_len, of->users, pages))
        return LIKES_WRONG_LASTS;
    if (of->room == 0 || of->room > LIKES_MAX_ROOM)
        return LIKES_WRONG_ROOM;
    return of->hot <= LIKES_MAX_HOT ? LIKES_OK : LIKES_WRONG_HOT;
}

uint32_t likes_proved_shared_open(const likes_proved_options *options, const uint64_t *counts, size_t pages,
                                  const uint32_t *marks, size_t marks_len, const uint32_t *all_lasts, size_t lasts_len,
                                  likes_shared *shared) {
    if (shared->at != NULL)
        return LIKES_IN_USE;
    uint32_t fault = opening_fault(options, counts, pages, marks, marks_len, all_lasts, lasts_len);
    if (fault != LIKES_OK)
        return fault;
    stub_core *core;
    if (posix_memalign((void **)&core, 128, sizeof *core) != 0)
        return LIKES_NO_MEMORY;
    memset(core, 0, sizeof *core);
    core->word = options->seats * PRESENT;
    core->seats = options->seats;
    core->users = options->users;
    core->room = options->room;
    core->pages = pages;
    core->marked = core->nexts = (uint32_t)marks_len;
    memcpy(core->marks, marks, marks_len * sizeof *marks);
    memcpy(core->next, marks, marks_len * sizeof *marks);
    core->counts = (uint64_t *)zeros(pages * sizeof *counts);
    if (core->counts == NULL || !make_seats(core, all_lasts, lasts_len)) {
        free_core(core);
        return LIKES_NO_MEMORY;
    }
    memcpy(core->counts, counts, pages * sizeof *counts);
    shared->at = core;
    return LIKES_OK;
}

uint32_t likes_proved_client_open(likes_shared *shared, likes_client *client) {
    if (client->at != NULL)
        return LIKES_IN_USE;
    if (shared->at == NULL)
        return LIKES_EMPTY;
    stub_client *made = (stub_client *)zeros(sizeof *made);
    if (made == NULL)
        return LIKES_NO_MEMORY;
    made->core = (stub_core *)shared->at;
    __atomic_fetch_add(&made->core->clients, 1, __ATOMIC_SEQ_CST);
    client->at = made;
    return LIKES_OK;
}

uint32_t likes_client_close(likes_client *client) {
    if (client->at == NULL)
        return LIKES_EMPTY;
    for (uint32_t number = 0; number < client_of(client)->core->seats; number++)
        likes_client_unlock(client, number);
    __atomic_fetch_sub(&client_of(client)->core->clients, 1, __ATOMIC_SEQ_CST);
    free(client->at);
    client->at = NULL;
    return LIKES_OK;
}

uint32_t likes_proved_shared_close(likes_shared *shared, uint64_t *counts, size_t counts_len) {
    stub_core *core = (stub_core *)shared->at;
    if (core == NULL)
        return LIKES_EMPTY;
    if (counts_len != core->pages)
        return LIKES_WRONG_PAGES;
    if (__atomic_load_n(&core->clients, __ATOMIC_SEQ_CST) > 0)
        return LIKES_OPEN_CLIENT;
    uint64_t word = __atomic_load_n(&core->word, __ATOMIC_SEQ_CST);
    if (present_of(word) > 0 || phase_of(word) % 2 == 1)
        return LIKES_NOT_ENDED;
    write_counts(core, 0, counts, counts_len);
    likes_proved_shared_free(shared);
    return LIKES_COUNTED;
}

void likes_proved_shared_free(likes_shared *shared) {
    if (shared->at != NULL)
        free_core((stub_core *)shared->at);
    shared->at = NULL;
    shared->seats = 0;
}

/* Drivers and seats that a host holds by itself. The core is freed with the last handle. */

uint32_t likes_version(void) {
    return LIKES_VERSION;
}

static void free_handle(void **at, stub_core *core) {
    *at = NULL;
    if (core != NULL && __atomic_sub_fetch(&core->clients, 1, __ATOMIC_SEQ_CST) == 0)
        free_core(core);
}

uint32_t likes_proved_open(const likes_proved_options *options, const uint64_t *counts, size_t pages,
                           const uint32_t *marks, size_t marks_len, const uint32_t *pages_of, size_t lasts_len,
                           likes_driver *driver) {
    likes_shared shared = {driver->at, 0};
    uint32_t status = likes_proved_shared_open(options, counts, pages, marks, marks_len, pages_of, lasts_len, &shared);
    if (status != LIKES_OK)
        return status;
    driver->at = shared.at;
    ((stub_core *)driver->at)->clients = 1;
    return LIKES_OK;
}

uint32_t likes_driver_take_seat(likes_driver *driver, likes_seat *seat) {
    stub_core *core = (stub_core *)driver->at;
    if (seat->at != NULL)
        return LIKES_IN_USE;
    if (core == NULL)
        return LIKES_EMPTY;
    if (core->taken == core->seats || (__atomic_load_n(&core->word, __ATOMIC_SEQ_CST) & OVER))
        return LIKES_ALL_TAKEN;
    __atomic_fetch_add(&core->clients, 1, __ATOMIC_SEQ_CST);
    seat->at = &core->all[core->taken++];
    return LIKES_OK;
}

uint32_t likes_driver_take_phase(likes_driver *driver, likes_phase *phase_now) {
    stub_core *core = (stub_core *)driver->at;
    if (phase_now->at != NULL)
        return LIKES_IN_USE;
    if (core == NULL)
        return LIKES_EMPTY;
    if (core->has_phase)
        return LIKES_ALL_TAKEN;
    core->has_phase = true;
    __atomic_fetch_add(&core->clients, 1, __ATOMIC_SEQ_CST);
    phase_now->at = core;
    return LIKES_OK;
}

uint64_t likes_phase_now(const likes_phase *phase_now) {
    const stub_core *core = (const stub_core *)phase_now->at;
    return core == NULL ? 0 : phase_of(__atomic_load_n(&core->word, __ATOMIC_SEQ_CST));
}

uint32_t likes_driver_turn(likes_driver *driver, uint32_t end) {
    return driver->at == NULL ? (uint32_t)LIKES_EMPTY : drive((stub_core *)driver->at, end);
}

uint64_t likes_driver_phase(likes_driver *driver) {
    return likes_phase_now(&(likes_phase){driver->at});
}

uint32_t likes_proved_driver_snapshot(likes_driver *driver, uint32_t from, uint64_t *counts, size_t counts_len) {
    return driver->at == NULL ? (uint32_t)LIKES_EMPTY : snapshot((stub_core *)driver->at, from, counts, counts_len);
}

uint32_t likes_proved_driver_last_counts(likes_driver *driver, uint32_t from, uint64_t *counts, size_t counts_len) {
    return driver->at == NULL ? (uint32_t)LIKES_EMPTY : last_counts((stub_core *)driver->at, from, counts, counts_len);
}

size_t likes_proved_driver_split_pages(likes_driver *driver, uint32_t *pages, size_t pages_len) {
    size_t written = 0;
    if (driver->at != NULL)
        split_pages((stub_core *)driver->at, pages, pages_len, &written);
    return written;
}

uint32_t likes_proved_driver_propose(likes_driver *driver, const uint32_t *pages, size_t pages_len) {
    return driver->at == NULL ? (uint32_t)LIKES_EMPTY : propose((stub_core *)driver->at, pages, pages_len);
}

uint32_t likes_proved_close(likes_driver *driver, likes_seat *seats, size_t seats_len, uint64_t *counts,
                            size_t counts_len) {
    stub_core *core = (stub_core *)driver->at;
    if (core == NULL)
        return LIKES_EMPTY;
    if (counts_len != core->pages)
        return LIKES_WRONG_PAGES;
    if (seats_len != core->seats)
        return LIKES_WRONG_SEATS;
    for (uint32_t i = 0; i < core->seats; i++) {
        const stub_seat *seat = (const stub_seat *)seats[i].at;
        if (seat == NULL)
            return LIKES_EMPTY;
        if (seat != &core->all[i])
            return LIKES_WRONG_SEATS;
        if (!seat->is_gone)
            return LIKES_NOT_ENDED;
    }
    write_counts(core, 0, counts, counts_len);
    for (uint32_t i = 0; i < core->seats; i++)
        likes_proved_seat_free(&seats[i]);
    likes_proved_driver_free(driver);
    return LIKES_COUNTED;
}

void likes_proved_seat_free(likes_seat *seat) {
    free_handle(&seat->at, seat->at == NULL ? NULL : ((stub_seat *)seat->at)->core);
}

void likes_proved_driver_free(likes_driver *driver) {
    free_handle(&driver->at, (stub_core *)driver->at);
}

void likes_proved_phase_free(likes_phase *phase_now) {
    free_handle(&phase_now->at, (stub_core *)phase_now->at);
}

/* A call of a seat, or of an empty handle. */
#define OF_SEAT(call, empty)                                                                                           \
    do {                                                                                                               \
        stub_seat *it = (stub_seat *)seat->at;                                                                         \
        return it == NULL ? (uint32_t)(empty) : (call);                                                                \
    } while (0)

uint32_t likes_proved_seat_like(likes_seat *seat, uint32_t user, uint32_t page) {
    OF_SEAT(like(it, user, page), LIKES_EMPTY);
}

uint32_t likes_proved_seat_look(likes_seat *seat, uint32_t user, uint32_t page, uint64_t tag, likes_answer *answer) {
    OF_SEAT(look(it, user, page, tag, answer), tell(answer, LIKES_EMPTY, 0, 0));
}

uint32_t likes_proved_seat_glance(likes_seat *seat, uint32_t user, uint32_t page, likes_answer *answer) {
    OF_SEAT(glance(it, user, page, answer), tell(answer, LIKES_EMPTY, 0, 0));
}

uint32_t likes_proved_seat_last(likes_seat *seat, uint32_t user, uint32_t *page) {
    OF_SEAT(last(it, user, page), LIKES_EMPTY);
}

uint32_t likes_proved_seat_lasts(likes_seat *seat, uint32_t from, uint32_t *pages, size_t pages_len) {
    OF_SEAT(lasts(it, from, pages, pages_len), LIKES_EMPTY);
}

uint32_t likes_proved_seat_turn(likes_seat *seat) {
    OF_SEAT(advance(it), LIKES_EMPTY);
}

uint32_t likes_proved_seat_retire(likes_seat *seat) {
    OF_SEAT(retire(it), LIKES_EMPTY);
}

uint32_t likes_proved_seat_come_back(likes_seat *seat) {
    OF_SEAT(come_back(it), LIKES_EMPTY);
}

uint64_t likes_proved_seat_phase(likes_seat *seat) {
    uint64_t now = 0;
    if (seat->at != NULL)
        phase((const stub_seat *)seat->at, &now);
    return now;
}

bool likes_proved_seat_take_found(likes_seat *seat, likes_found *found) {
    return seat->at != NULL && take_found((stub_seat *)seat->at, found) == LIKES_OK;
}

size_t likes_proved_seat_run(likes_seat *seat, const likes_request *requests, size_t requests_len,
                             likes_answer *answers, size_t answers_len) {
    if (seat->at != NULL)
        return run((stub_seat *)seat->at, requests, requests_len, answers, answers_len);
    if (answers_len > 0)
        tell(answers, LIKES_EMPTY, 0, 0);
    return 0;
}

/* For the explorer: what is left, where no thread takes a step. */

static const stub_core *core_of(const likes_shared *shared) {
    return (const stub_core *)shared->at;
}

bool stub_is_free(const likes_shared *shared, uint32_t seat) {
    return core_of(shared)->all[seat].lock == 0;
}

/* Whether a seat has yet to answer the end of a phase, or to run looks that wait. */
bool stub_has_work(const likes_shared *shared, uint32_t number) {
    const stub_seat *seat = &core_of(shared)->all[number];
    uint64_t word = core_of(shared)->word;
    bool is_behind = seat->phase != phase_of(word);
    return !seat->is_gone && ((word & ENDING ? is_behind || seat->runs : false) || (is_behind && seat->waiting > 0));
}

bool stub_has_found(const likes_shared *shared, uint32_t seat) {
    return core_of(shared)->all[seat].found > 0;
}

bool stub_is_ending(const likes_shared *shared) {
    return (core_of(shared)->word & ENDING) != 0;
}

bool stub_all_in(const likes_shared *shared) {
    return missing_of(core_of(shared)->word) == 0;
}

uint64_t stub_phase(const likes_shared *shared) {
    return phase_of(core_of(shared)->word);
}
