/* What a seat and a driver may answer, by likes.h alone. Each call of hosts.c goes through this model, which makes
 * it, compares the answer with what it knows, and notes it. What the call doesn't write must stay as it was. */
#ifndef LIVE_MODEL_H
#define LIVE_MODEL_H

#include "events.h"

enum { ROW = 64 };

/* What the library has not written. */
enum { UNWRITTEN = 0xa5 };

/* A look that waits, or was found and isn't taken. */
typedef struct {
    likes_found found;
    uint64_t likes, start, end; /* as of the call in which it was found */
    bool is_found;
} wait;

/* A seat behind its lock, and what is known of it. */
typedef struct {
    pthread_mutex_t lock;
    likes_seat handle;
    uint32_t status; /* LIKES_RUNS, LIKES_BETWEEN or LIKES_GONE, as of its last call; LIKES_EMPTY: freed */
    uint64_t phase, likes, left; /* `left`: the phase from which it may have retired */
    wait *waits; /* a ring of as many as it has room for */
    uint32_t first, length;
    bool is_leaving, is_done;
    uint32_t calls, late_calls, returns; /* how many it has left, until it retires and after that */
} seat;

/* Pages that are proposed for split phases. */
typedef struct {
    uint32_t pages[LIKES_MAX_SPLIT];
    size_t length;
    bool is_sampled; /* the library may find others by itself */
} proposal;

/* A round with its service. */
typedef struct {
    record record;
    seat seats[LIKES_MAX_SEATS];
    uint32_t leaving, gone, done; /* how many seats are; atomic */
    uint32_t returns, over;       /* how often a seat tried to come back; whether last counts were written; atomic */
    pthread_mutex_t driving;      /* of the driver and what is known of it, down to `phase` */
    likes_driver driver;
    bool is_ending, is_over;
    bool may_be_ending; /* likes_driver_last_counts may have announced the end, at some time of `maybe` */
    span maybe;
    bool is_all_in;  /* every seat has answered the phase that is ending, for certain */
    bool is_held_up; /* a seat has not */
    proposal asked;  /* what is proposed now */
    proposal taken;  /* what a turn has taken for the next split phase */
    uint32_t told[LIKES_MAX_SPLIT]; /* the pages that are split, or were last */
    size_t told_len;
    likes_phase phase;
} game;

/* How many pages were proposed, of these how many were split, and how many the library has found. */
static uint64_t all_proposed, all_split, all_found;

/* How many seats came back; atomic. */
static uint32_t all_returns;

static void spoil(void *at, size_t size) {
    memset(at, UNWRITTEN, size);
}

static bool is_spoilt(const void *at, size_t size) {
    const unsigned char *bytes = (const unsigned char *)at;
    return size == 0 || (bytes[0] == UNWRITTEN && memcmp(bytes, bytes + 1, size - 1) == 0);
}

static uint32_t load(const uint32_t *at) {
    return __atomic_load_n(at, __ATOMIC_SEQ_CST);
}

static void count(uint32_t *at) {
    __atomic_add_fetch(at, 1, __ATOMIC_SEQ_CST);
}

static void discount(uint32_t *at) {
    __atomic_sub_fetch(at, 1, __ATOMIC_SEQ_CST);
}

/* How many seats tried to come back, were leaving and were gone, before a call of the driver. */
typedef struct {
    uint32_t returns, leaving, gone;
} before;

static before look_before(const game *it) {
    before now = {.returns = load(&it->returns)};
    now.gone = load(&it->gone);
    now.leaving = load(&it->leaving);
    return now;
}

/* Whether all seats were gone for certain while a call was made, and whether they may have been at some time. */
static bool were_gone(const game *it, before then) {
    return then.gone == it->record.options.seats && load(&it->returns) == then.returns;
}

static bool may_be_gone(const game *it, before then) {
    uint32_t seats = it->record.options.seats;
    return then.leaving == seats || load(&it->leaving) == seats || load(&it->returns) != then.returns;
}

/* A seat enters a joined phase: all that waits is found, in this call. */
static void find_all(game *it, seat *at, uint64_t start, uint64_t end) {
    for (uint32_t i = 0; i < at->length; i++) {
        wait *next = &at->waits[(at->first + i) % it->record.options.room];
        if (next->is_found)
            continue;
        next->is_found = true;
        next->found.ran = next->found.asked + 1;
        next->found.last = it->record.last[next->found.user];
        next->likes = at->likes;
        next->start = start;
        next->end = end;
    }
}

/* Follows a seat that isn't gone into the phase that it tells: the one that it was in, or the next. */
static void follow(game *it, uint32_t number, uint64_t start, uint64_t end) {
    seat *at = &it->seats[number];
    uint64_t phase = likes_seat_phase(&at->handle);
    if (phase == at->phase)
        return;
    if (phase != at->phase + 1)
        fail(&it->record, "seat %u went from phase %llu to %llu", number, (unsigned long long)at->phase,
             (unsigned long long)phase);
    at->phase = phase;
    if (phase % 2 == 0)
        find_all(it, at, start, end);
}

/* What a request is refused for: LIKES_UNKNOWN_USER, OTHER_SEAT or UNKNOWN_PAGE, or LIKES_OK. */
static uint32_t verdict_of(const game *it, uint32_t number, const likes_request *request) {
    if (request->user >= it->record.options.users)
        return LIKES_UNKNOWN_USER;
    if (request->user % it->record.options.seats != number)
        return LIKES_OTHER_SEAT;
    return request->page >= it->record.pages ? LIKES_UNKNOWN_PAGE : LIKES_OK;
}

/* Whether a seat may give this answer. Whether it may wait, or be between phases, is checked once the round is over. */
static bool may_answer(const game *it, uint32_t number, const likes_request *request, uint32_t status) {
    const seat *at = &it->seats[number];
    if (at->status == LIKES_EMPTY)
        return status == LIKES_EMPTY;
    if (request->op > LIKES_GLANCE || request->reserved != 0)
        return status == LIKES_UNKNOWN_OP;
    if (at->status == LIKES_GONE)
        return status == LIKES_GONE;
    if (status == LIKES_BETWEEN)
        return true;
    uint32_t verdict = verdict_of(it, number, request);
    if (verdict != LIKES_OK)
        return status == verdict;
    if (request->op == LIKES_LIKE)
        return status == LIKES_LIKED;
    bool has_room = at->length < it->record.options.room;
    bool waits = request->op == LIKES_LOOK && status == (uint32_t)(has_room ? LIKES_WAITS : LIKES_NO_ROOM);
    return status == LIKES_SEEN || waits || (request->op == LIKES_GLANCE && status == LIKES_GLIMPSED);
}

static void note_wait(const game *it, seat *at, const likes_request *request) {
    wait *next = &at->waits[(at->first + at->length++) % it->record.options.room];
    memset(next, 0, sizeof *next);
    next->found = (likes_found){.tag = request->tag, .user = request->user, .page = request->page, .asked = at->phase};
}

/* Notes what a request was answered. */
static void note_answer(game *it, uint32_t number, const likes_request *request, const likes_answer *answer,
                        event made) {
    seat *at = &it->seats[number];
    uint32_t *last = &it->record.last[request->user];
    if (answer->status == LIKES_LIKED) {
        made.kind = LIKED;
        *last = request->page;
        at->likes++;
    } else if (answer->status == LIKES_SEEN || answer->status == LIKES_GLIMPSED) {
        made.kind = answer->status == LIKES_GLIMPSED ? GLIMPSED : request->op == LIKES_LOOK ? LOOKED : GLANCED;
        if (answer->last != *last)
            fail(&it->record, "seat %u: the last like of user %u was reported as %u, not %u", number, request->user,
                 answer->last, *last);
    } else if (answer->status == LIKES_WAITS) {
        made.kind = WAITED;
        note_wait(it, at, request);
    } else {
        made.kind = answer->status == LIKES_NO_ROOM ? LACKED_ROOM : WAS_BETWEEN;
    }
    note(&it->record.histories[number], made);
}

/* Compares an answer with what it may be, and notes it. */
static void take_answer(game *it, uint32_t number, const likes_request *request, const likes_answer *answer, span of) {
    seat *at = &it->seats[number];
    uint32_t status = answer->status;
    if (!may_answer(it, number, request, status))
        fail(&it->record, "seat %u, %s: request %u of user %u at page %u was answered %s, with %u looks of %u", number,
             likes_status_text(at->status), request->op, request->user, request->page, likes_status_text(status),
             at->length, it->record.options.room);
    if (status != LIKES_SEEN && status != LIKES_GLIMPSED && (answer->count != 0 || answer->last != 0))
        fail(&it->record, "seat %u: the answer %s has a count or a last like", number, likes_status_text(status));
    if (at->status == LIKES_EMPTY || at->status == LIKES_GONE || status == LIKES_UNKNOWN_OP)
        return;
    at->status = status == LIKES_BETWEEN ? LIKES_BETWEEN : LIKES_RUNS;
    if (status >= LIKES_FIRST_ERROR)
        return;
    event made = {.page = request->page, .phase = at->phase, .likes = at->likes, .start = of.start, .end = of.end};
    made.count = answer->count;
    note_answer(it, number, request, answer, made);
}

/* Makes a call of its own for a request. */
static void call_one(game *it, uint32_t number, const likes_request *request) {
    seat *at = &it->seats[number];
    struct {
        likes_answer before, at, behind;
    } answers;
    spoil(&answers, sizeof answers);
    span of = {time_before(&it->record), 0};
    uint32_t status;
    if (request->op == LIKES_LIKE) {
        status = likes_seat_like(&at->handle, request->user, request->page);
        answers.at = (likes_answer){0, 0, status};
    } else if (request->op == LIKES_LOOK) {
        status = likes_seat_look(&at->handle, request->user, request->page, request->tag, &answers.at);
    } else {
        status = likes_seat_glance(&at->handle, request->user, request->page, &answers.at);
    }
    of.end = time_after(&it->record);
    if (at->status != LIKES_EMPTY && at->status != LIKES_GONE)
        follow(it, number, of.start, of.end);
    if (status != answers.at.status)
        fail(&it->record, "seat %u: a call gave %u and wrote %u", number, status, answers.at.status);
    if (!is_spoilt(&answers.before, sizeof answers.before) || !is_spoilt(&answers.behind, sizeof answers.behind))
        fail(&it->record, "seat %u: a call wrote beside its answer", number);
    take_answer(it, number, request, &answers.at, of);
}

/* How many answers a row has to have: up to its end, those of the requests that were done, and the one at which it
 * stopped. */
static size_t answers_of(const game *it, uint32_t number, const likes_answer *answers, size_t done, size_t length) {
    bool is_empty = it->seats[number].status == LIKES_EMPTY;
    for (size_t i = 0; i < done; i++)
        if (answers[i].status == LIKES_BETWEEN || answers[i].status == LIKES_NO_ROOM)
            fail(&it->record, "seat %u: a row went on after the answer %s", number,
                 likes_status_text(answers[i].status));
    if (done > length || (is_empty && done > 0))
        fail(&it->record, "seat %u: %zu of %zu requests were done", number, done, length);
    if (done == length)
        return done;
    uint32_t status = answers[done].status;
    if (status != LIKES_BETWEEN && status != LIKES_NO_ROOM && !is_empty)
        fail(&it->record, "seat %u: a row stopped at the answer %s", number, likes_status_text(status));
    return done + 1;
}

/* Runs a row of requests, with room for so many answers. Of the two lengths the shorter one counts. */
static void call_row(game *it, uint32_t number, const likes_request *requests, size_t requests_len,
                     size_t answers_len) {
    seat *at = &it->seats[number];
    likes_answer room[ROW + 2], *answers = room + 1;
    spoil(room, sizeof room);
    size_t length = requests_len < answers_len ? requests_len : answers_len;
    span of = {time_before(&it->record), 0};
    size_t done = likes_seat_run(&at->handle, requests_len == 0 ? NULL : requests, requests_len,
                                 answers_len == 0 ? NULL : answers, answers_len);
    of.end = time_after(&it->record);
    if (at->status != LIKES_EMPTY && at->status != LIKES_GONE)
        follow(it, number, of.start, of.end);
    bool is_empty = at->status == LIKES_EMPTY;
    size_t written = answers_of(it, number, answers, done, is_empty ? answers_len : length);
    if (!is_spoilt(room, sizeof *room) || !is_spoilt(answers + written, (ROW + 1 - written) * sizeof *answers))
        fail(&it->record, "seat %u: a row wrote beside its %zu answers", number, written);
    for (size_t i = 0; i < written && i < requests_len; i++)
        take_answer(it, number, &requests[i], &answers[i], of);
}

/* Compares a found look with the next one that has to be found. */
static bool is_next(const likes_found *found, const wait *next) {
    const likes_found *right = &next->found;
    return found->tag == right->tag && found->user == right->user && found->page == right->page &&
           found->asked == right->asked && found->ran == right->ran && found->last == right->last &&
           found->reserved == 0;
}

/* Takes a found look. Whether there was one: there is one exactly where the next look was found. */
static bool take_found(game *it, uint32_t number) {
    seat *at = &it->seats[number];
    wait *next = &at->waits[at->first];
    likes_found found;
    spoil(&found, sizeof found);
    bool is_there = likes_seat_take_found(&at->handle, &found);
    bool should = at->status != LIKES_EMPTY && at->length > 0 && next->is_found;
    if (is_there != should)
        fail(&it->record, "seat %u has %s found look, with %u that wait or were found", number, is_there ? "a" : "no",
             at->length);
    if (!is_there && !is_spoilt(&found, sizeof found))
        fail(&it->record, "seat %u: no look was found, and one was written", number);
    if (!is_there)
        return false;
    if (!is_next(&found, next))
        fail(&it->record,
             "seat %u: found was tag %llu, user %u, page %u, last %u, phases %llu and %llu, and not tag %llu, user %u, "
             "page %u, last %u, phase %llu",
             number, (unsigned long long)found.tag, found.user, found.page, found.last, (unsigned long long)found.asked,
             (unsigned long long)found.ran, (unsigned long long)next->found.tag, next->found.user, next->found.page,
             next->found.last, (unsigned long long)next->found.asked);
    event made = {.kind = FOUND, .page = found.page, .phase = found.ran, .likes = next->likes, .start = next->start};
    made.end = next->end;
    made.count = found.count;
    note(&it->record.histories[number], made);
    at->first = (at->first + 1) % it->record.options.room;
    at->length--;
    return true;
}

/* Asks for a user's last like, whatever the seat's state. */
static void check_last(const game *it, uint32_t number, uint32_t user) {
    const likes_request request = {.user = user};
    likes_seat handle = it->seats[number].handle;
    struct {
        uint32_t before, at, behind;
    } pages;
    spoil(&pages, sizeof pages);
    uint32_t right = it->seats[number].status == LIKES_EMPTY ? LIKES_EMPTY : verdict_of(it, number, &request);
    uint32_t status = likes_seat_last(&handle, user, &pages.at);
    if (status != right)
        fail(&it->record, "seat %u: the last like of user %u is answered %s", number, user, likes_status_text(status));
    if (status == LIKES_OK ? pages.at != it->record.last[user] : !is_spoilt(&pages.at, sizeof pages.at))
        fail(&it->record, "seat %u: the last like of user %u is reported as %u", number, user, pages.at);
    if (!is_spoilt(&pages.before, sizeof pages.before) || !is_spoilt(&pages.behind, sizeof pages.behind))
        fail(&it->record, "seat %u: a last like was written beside its place", number);
}

/* Asks for the last likes of some of a seat's users, from one of its users on. */
static void check_lasts(const game *it, uint32_t number, uint32_t from, size_t length) {
    uint32_t seats = it->record.options.seats, own = (it->record.options.users - number + seats - 1) / seats;
    bool is_empty = it->seats[number].status == LIKES_EMPTY;
    bool is_there = !is_empty && from <= own && length <= own - from;
    likes_seat handle = it->seats[number].handle;
    uint32_t *pages = (uint32_t *)malloc((length + 2) * sizeof *pages);
    if (pages == NULL)
        abort();
    spoil(pages, (length + 2) * sizeof *pages);
    uint32_t status = likes_seat_lasts(&handle, from, length == 0 ? NULL : pages + 1, length);
    if (status != (uint32_t)(is_empty ? LIKES_EMPTY : is_there ? LIKES_OK : LIKES_WRONG_RANGE))
        fail(&it->record, "seat %u: %zu last likes from %u are answered %s", number, length, from,
             likes_status_text(status));
    size_t written = is_there ? length : 0;
    if (!is_spoilt(pages, sizeof *pages) || !is_spoilt(pages + 1 + written, (length + 1 - written) * sizeof *pages))
        fail(&it->record, "seat %u: last likes were written beside their places", number);
    for (size_t i = 0; i < written; i++)
        if (pages[1 + i] != it->record.last[number + seats * (from + i)])
            fail(&it->record, "seat %u: the last like of its user number %zu is reported as %u", number, from + i,
                 pages[1 + i]);
    free(pages);
}

/* Notes the answer of a turn, or of a retirement that is one. */
static void take_turn(game *it, uint32_t number, uint32_t status, span of) {
    seat *at = &it->seats[number];
    bool is_there = at->status != LIKES_EMPTY && at->status != LIKES_GONE;
    if (is_there ? status != LIKES_RUNS && status != LIKES_BETWEEN : status != at->status)
        fail(&it->record, "seat %u, %s: a turn was answered %s", number, likes_status_text(at->status),
             likes_status_text(status));
    if (!is_there)
        return;
    follow(it, number, of.start, of.end);
    at->status = status;
    event made = {.kind = WAS_BETWEEN, .phase = at->phase, .likes = at->likes, .start = of.start, .end = of.end};
    if (status == LIKES_BETWEEN)
        note(&it->record.histories[number], made);
}

static uint32_t turn_seat(game *it, uint32_t number) {
    span of = {time_before(&it->record), 0};
    uint32_t status = likes_seat_turn(&it->seats[number].handle);
    of.end = time_after(&it->record);
    take_turn(it, number, status, of);
    return status;
}

/* Has a seat retire. It can in a joined phase: the one that it was in, or the one after the split phase that it has
 * answered. */
static uint32_t retire_seat(game *it, uint32_t number) {
    seat *at = &it->seats[number];
    if (!at->is_leaving)
        count(&it->leaving);
    at->is_leaving = true;
    span of = {time_before(&it->record), 0};
    uint32_t status = likes_seat_retire(&at->handle);
    of.end = time_after(&it->record);
    if (status != LIKES_GONE || at->status == LIKES_GONE) {
        take_turn(it, number, status, of);
        return status;
    }
    if (at->phase % 2 == 0 ? at->status == LIKES_BETWEEN : at->status != LIKES_BETWEEN)
        fail(&it->record, "seat %u, %s, retired in phase %llu", number, likes_status_text(at->status),
             (unsigned long long)at->phase);
    find_all(it, at, of.start, of.end);
    at->status = LIKES_GONE;
    at->left = at->phase;
    at->phase = 0;
    count(&it->gone);
    return status;
}

/* Has a seat come back. One that is gone runs the present phase, or nothing is done. Nobody comes back once last counts
 * were written. */
static uint32_t return_seat(game *it, uint32_t number) {
    seat *at = &it->seats[number];
    bool was_gone = at->status == LIKES_GONE, is_over = load(&it->over) != 0;
    if (was_gone) {
        discount(&it->gone);
        count(&it->returns);
    }
    span of = {time_before(&it->record), 0};
    uint32_t status = likes_seat_come_back(&at->handle);
    of.end = time_after(&it->record);
    if (!was_gone) {
        take_turn(it, number, status, of);
        return status;
    }
    uint64_t phase = likes_seat_phase(&at->handle);
    if (status == LIKES_RUNS ? is_over || phase < at->left : status != LIKES_BETWEEN || phase != 0)
        fail(&it->record, "seat %u, which left phase %llu, came back into phase %llu: %s", number,
             (unsigned long long)at->left, (unsigned long long)phase, likes_status_text(status));
    if (status != LIKES_RUNS) {
        count(&it->gone);
        return status;
    }
    at->status = status;
    at->phase = phase;
    at->is_leaving = false;
    discount(&it->leaving);
    count(&all_returns);
    return status;
}

/* Whether a page of a proposal is one of the service. */
static bool has_page(const game *it, const proposal *of) {
    for (size_t n = 0; n < of->length; n++)
        if (of->pages[n] < it->record.pages)
            return true;
    return false;
}

/* Whether a page would be split in the next split phase for certain, whatever is proposed now. */
static bool would_split(const game *it) {
    return it->record.marks_len > 0 || (!it->taken.is_sampled && has_page(it, &it->taken));
}

/* Whether a turn of the driver may give this answer. */
static bool may_turn(const game *it, uint32_t end, before then, uint32_t status) {
    const record *of = &it->record;
    bool are_gone = were_gone(it, then);
    bool is_split = of->phases_len % 2 == 0;
    bool splits = would_split(it) || has_page(it, &it->asked), finds = it->taken.is_sampled || it->asked.is_sampled;
    if (end > LIKES_END)
        return status == LIKES_UNKNOWN_END;
    if (it->is_over)
        return status == LIKES_ENDED;
    if (it->is_ending)
        return status == LIKES_RELEASED ? !it->is_held_up : status == LIKES_NOT_ALL_IN && !it->is_all_in && !are_gone;
    bool is_asked = end == LIKES_END || (end == LIKES_END_IF_IT_SERVES && (is_split || splits));
    if (status == LIKES_ENDED)
        return may_be_gone(it, then) && !(is_split && is_asked);
    if (are_gone && !is_split)
        return false;
    if (status == LIKES_ANNOUNCED)
        return is_asked || is_split || (end == LIKES_END_IF_IT_SERVES && finds);
    return status == LIKES_GOES_ON && !is_asked && !are_gone;
}

/* Takes what is proposed, where a turn does: it has ended a split phase, or it may end a joined one that not all seats
 * have left, and no page would be split in the next. The library alone knows whether it has found pages before: then these may stay. */
static void take_proposal(game *it, uint32_t end, uint32_t status) {
    bool is_split = it->record.phases_len % 2 == 0, may_end = end == LIKES_END_IF_IT_SERVES || end == LIKES_END;
    bool may_take = may_end && !it->is_ending && status != LIKES_ENDED && !would_split(it);
    if (is_split ? status != LIKES_ANNOUNCED : !may_take)
        return;
    bool may_stay = !is_split && it->taken.is_sampled && status == LIKES_ANNOUNCED;
    it->taken = it->asked;
    it->taken.is_sampled |= may_stay;
}

/* Asks which pages are split, with some room. What is told stays the same until the next split phase. */
static void check_told(game *it, size_t room) {
    uint32_t pages[LIKES_MAX_SPLIT + 4];
    spoil(pages, sizeof pages);
    size_t right = room < it->told_len ? room : it->told_len;
    size_t told = likes_driver_split_pages(&it->driver, room == 0 ? NULL : pages + 1, room);
    if (told != right || memcmp(pages + 1, it->told, right * sizeof *pages) != 0)
        fail(&it->record, "phase %zu: %zu pages are reported as split, with room for %zu, not %zu",
             it->record.phases_len - 1, told, room, right);
    size_t beside = (LIKES_MAX_SPLIT + 3 - right) * sizeof *pages;
    if (!is_spoilt(pages, sizeof *pages) || !is_spoilt(pages + 1 + right, beside))
        fail(&it->record, "pages were written beside the %zu that are split", right);
}

/* Asks which pages are split now: no two alike, and all marked ones among them. */
static void note_told(game *it) {
    const record *of = &it->record;
    it->told_len = likes_driver_split_pages(&it->driver, it->told, LIKES_MAX_SPLIT);
    if (it->told_len > LIKES_MAX_SPLIT)
        fail(of, "phase %zu: %zu pages are split", of->phases_len - 1, it->told_len);
    for (size_t n = 0; n < it->told_len; n++)
        if (it->told[n] >= of->pages || is_among(it->told[n], it->told, n))
            fail(of, "phase %zu: page %u is reported as split, or twice so", of->phases_len - 1, it->told[n]);
    for (size_t n = 0; n < of->marks_len; n++)
        if (!is_among(of->marks[n], it->told, it->told_len))
            fail(of, "phase %zu: the marked page %u is not reported as split", of->phases_len - 1, of->marks[n]);
    check_told(it, LIKES_MAX_SPLIT + 2);
}

/* Counts the pages that are proposed and aren't marked, each once, where there is a slot for all. */
static void count_proposed(const game *it) {
    uint64_t proposed = 0, split = 0;
    for (size_t n = 0; n < it->taken.length; n++) {
        uint32_t page = it->taken.pages[n];
        if (page < it->record.pages && !is_marked(&it->record, page) && !is_among(page, it->taken.pages, n)) {
            proposed++;
            split += is_among(page, it->told, it->told_len);
        }
    }
    if (it->record.marks_len + proposed > LIKES_MAX_SPLIT || it->taken.is_sampled)
        return;
    if (proposed > 0 && split == 0 && it->record.marks_len == 0)
        fail(&it->record, "phase %zu: no page is split", it->record.phases_len - 1);
    all_proposed += proposed;
    all_split += split;
}

/* A split phase has begun: its pages are marked, or were proposed, or the library may have found them. */
static void note_split(game *it) {
    record *of = &it->record;
    phase_span *phase = &of->phases[of->phases_len - 1];
    note_told(it);
    phase->split_len = it->told_len;
    for (size_t n = 0; n < it->told_len; n++) {
        uint32_t page = phase->split[n] = it->told[n];
        if (is_marked(of, page) || is_among(page, it->taken.pages, it->taken.length))
            continue;
        if (!it->taken.is_sampled)
            fail(of, "phase %zu: page %u is split, and nobody has proposed it", of->phases_len - 1, page);
        phase->found[phase->found_len++] = page;
    }
    all_found += phase->found_len;
    count_proposed(it);
}

/* Proposes pages. */
static void propose(game *it, const uint32_t *pages, size_t length) {
    uint32_t status = likes_driver_propose(&it->driver, length == 0 ? NULL : pages, length);
    if (status != LIKES_OK)
        fail(&it->record, "a proposal of %zu pages was answered %s", length, likes_status_text(status));
    it->asked.length = length < LIKES_MAX_SPLIT ? length : LIKES_MAX_SPLIT;
    it->asked.is_sampled = length == 0 && it->record.options.hot > 0;
    for (size_t n = 0; n < it->asked.length; n++)
        it->asked.pages[n] = pages[n];
}

/* The phase is ending, by a call that wasn't told so. */
static void note_ending(game *it) {
    note_announcement(&it->record, it->maybe.start, it->maybe.end, false);
    it->is_ending = true;
    it->may_be_ending = false;
}

/* Makes a turn of the driver. It tells whether the phase was ending. */
static uint32_t turn_driver(game *it, uint32_t end) {
    record *of = &it->record;
    before then = look_before(it);
    uint64_t start = time_before(of);
    uint32_t status = likes_driver_turn(&it->driver, end);
    uint64_t after = time_after(of);
    if (it->may_be_ending && (status == LIKES_NOT_ALL_IN || status == LIKES_RELEASED))
        note_ending(it);
    it->may_be_ending &= status == LIKES_UNKNOWN_END;
    if (!may_turn(it, end, then, status))
        fail(of, "phase %zu: a turn of the driver, for end %u, was answered %s", of->phases_len - 1, end,
             likes_status_text(status));
    take_proposal(it, end, status);
    if (status == LIKES_ANNOUNCED) {
        note_announcement(of, start, after, end == LIKES_NO_END);
        it->is_ending = true;
    } else if (status == LIKES_RELEASED) {
        note_release(of, start, after);
        it->is_ending = it->is_all_in = false;
        if (of->phases_len % 2 == 0)
            note_split(it);
    }
    if (likes_driver_phase(&it->driver) != of->phases_len - 1)
        fail(of, "the driver reports phase %llu in phase %zu", (unsigned long long)likes_driver_phase(&it->driver),
             of->phases_len - 1);
    return status;
}

/* A call that writes the counts of a range of pages: likes_driver_snapshot or likes_driver_last_counts. */
typedef uint32_t ranged(likes_driver *driver, uint32_t from, uint64_t *counts, size_t counts_len);

/* Whether a call may be answered so about a range that is there. */
static bool may_be_told(const game *it, ranged *call, before then, uint32_t status) {
    bool is_joined = it->record.phases_len % 2 == 1;
    if (call == likes_driver_last_counts) {
        bool must = it->is_over || (is_joined && were_gone(it, then));
        bool may = it->is_over || (is_joined && may_be_gone(it, then) && !it->is_held_up);
        return status == LIKES_COUNTED ? may : status == LIKES_NOT_ENDED && !must;
    }
    bool may = (it->is_ending || it->may_be_ending) && is_joined && !it->is_over && !it->is_held_up;
    return status == LIKES_COUNTED ? may : status == LIKES_NO_MOMENT && !(may && it->is_all_in);
}

/* Notes what an answer about counts tells of the phase. Last counts announce the end of a joined phase that all seats
 * have left, also where one comes back before they look again. */
static void take_told(game *it, ranged *call, before then, uint32_t status, span of) {
    if (status == LIKES_COUNTED && call == likes_driver_snapshot) {
        if (it->may_be_ending)
            note_ending(it);
        it->is_all_in = true;
    } else if (status == LIKES_COUNTED) {
        it->is_over = true;
        if (load(&it->over) == 0)
            count(&it->over);
    } else if (status == LIKES_NOT_ENDED && it->record.phases_len % 2 == 1 && !it->is_ending && may_be_gone(it, then)) {
        it->maybe = (span){it->may_be_ending ? it->maybe.start : of.start, of.end};
        it->may_be_ending = true;
    }
}

/* Has the counts of a range written, and keeps them for the end of the round. Gives the answer. */
static uint32_t write_counts(game *it, ranged *call, uint32_t from, size_t length) {
    uint64_t *room = (uint64_t *)malloc((length + 2) * sizeof *room);
    if (room == NULL)
        abort();
    spoil(room, (length + 2) * sizeof *room);
    before then = look_before(it);
    span of = {time_before(&it->record), 0};
    uint32_t status = call(&it->driver, from, length == 0 ? NULL : room + 1, length);
    of.end = time_after(&it->record);
    bool is_there = from <= it->record.pages && length <= it->record.pages - from;
    if (is_there ? !may_be_told(it, call, then, status) : status != LIKES_WRONG_RANGE)
        fail(&it->record, "phase %zu: the counts of %zu pages from %u are answered %s", it->record.phases_len - 1,
             length, from, likes_status_text(status));
    size_t written = status == LIKES_COUNTED ? length : 0;
    if (!is_spoilt(room, sizeof *room) || !is_spoilt(room + 1 + written, (length + 1 - written) * sizeof *room))
        fail(&it->record, "the answer %s wrote beside %zu counts", likes_status_text(status), written);
    take_told(it, call, then, status, of);
    if (written == 0) {
        free(room);
        return status;
    }
    memmove(room, room + 1, length * sizeof *room);
    note_moment(&it->record, from, room, length);
    return status;
}

#endif
