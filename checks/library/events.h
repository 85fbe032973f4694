/* What the calls of a round did, and the checks of the counts that they were shown. hosts.c plays the rounds.
 * There may be a million pages, so likes are tallied by sorted lists and not by page. */
#ifndef LIVE_EVENTS_H
#define LIVE_EVENTS_H

#include "harness.h"

#include <stdarg.h>

enum { STOCK = 200 };

enum kind { LIKED, LOOKED, GLANCED, GLIMPSED, FOUND, WAITED, LACKED_ROOM, WAS_BETWEEN };

/* A call that did something, or was refused by its phase or for want of room. Times are numbers that grow with each
 * call of the round. */
typedef struct {
    enum kind kind;
    uint32_t page;
    uint64_t phase;      /* in which it ran */
    uint64_t likes;      /* how many likes its seat had had before */
    uint64_t start, end; /* the times before and after the call in which it ran */
    uint64_t count;
} event;

/* The events of a seat. */
typedef struct {
    event *events;
    size_t length, room;
} history;

static const uint64_t NEVER = UINT64_MAX;

/* The times before and after a driver's turn that did something. */
typedef struct {
    uint64_t start, end;
} span;

/* How a phase came and went. */
typedef struct {
    span release, announcement;
    bool is_unasked; /* its end was announced by a turn that didn't ask for it */
    uint32_t split[LIKES_MAX_SPLIT], found[LIKES_MAX_SPLIT]; /* its pages, and those of them that nobody proposed */
    size_t split_len, found_len;
} phase_span;

/* Counts that were written: of a range of pages, at the end of a phase. */
typedef struct {
    uint64_t phase, *counts;
    uint32_t from;
    size_t length;
} moment;

/* A round: how its service was opened, and what its calls did. */
typedef struct {
    uint64_t seed;
    likes_options options;
    size_t pages;
    uint64_t *counts;                /* the initial ones */
    uint32_t marks[LIKES_MAX_MARKS]; /* in random order */
    size_t marks_len;
    uint32_t stock[STOCK]; /* pages that are proposed, and asked for more often */
    uint32_t rush;         /* so many of 16 requests are of the first of these */
    uint32_t *last;  /* each user's last like, or LIKES_NO_PAGE; used under the lock of its seat */
    size_t last_len; /* with how many of these the service was opened: all or none */
    bool is_timed;   /* whether calls are timed: a clock that all share slows them down */
    uint64_t time;   /* atomic */
    history histories[LIKES_MAX_SEATS];
    phase_span *phases;
    size_t phases_len, phases_room;
    moment *moments;
    size_t moments_len, moments_room;
} record;

/* Tells what was wrong first, and ends the program. */
static void fail(const record *it, const char *text, ...) {
    static pthread_mutex_t failing = PTHREAD_MUTEX_INITIALIZER;
    va_list more;
    pthread_mutex_lock(&failing);
    va_start(more, text);
    printf("round %llu: ", (unsigned long long)it->seed);
    vprintf(text, more);
    va_end(more);
    puts("");
    exit(1);
}

/* Makes room for one entry more, and gives where the entries are. */
static void *grown(void *entries, size_t length, size_t *room, size_t size) {
    if (length < *room)
        return entries;
    *room = *room == 0 ? 16 : 2 * *room;
    entries = realloc(entries, *room * size);
    if (entries == NULL)
        abort();
    return entries;
}

/* The time before a call, and after it. Without a clock, every call goes on from the first to the last moment. */
static uint64_t time_before(record *it) {
    return it->is_timed ? __atomic_add_fetch(&it->time, 1, __ATOMIC_SEQ_CST) : 0;
}

static uint64_t time_after(record *it) {
    return it->is_timed ? __atomic_add_fetch(&it->time, 1, __ATOMIC_SEQ_CST) : NEVER;
}

static void note(history *to, event it) {
    to->events = (event *)grown(to->events, to->length, &to->room, sizeof it);
    to->events[to->length++] = it;
}

static void note_release(record *it, uint64_t start, uint64_t end) {
    it->phases = (phase_span *)grown(it->phases, it->phases_len, &it->phases_room, sizeof *it->phases);
    it->phases[it->phases_len++] = (phase_span){.release = {start, end}, .announcement = {NEVER, NEVER}};
}

static void note_announcement(record *it, uint64_t start, uint64_t end, bool is_unasked) {
    phase_span *phase = &it->phases[it->phases_len - 1];
    phase->announcement = (span){start, end};
    phase->is_unasked = is_unasked;
}

/* Notes counts of the present phase. They belong to the record from now on. */
static void note_moment(record *it, uint32_t from, uint64_t *counts, size_t length) {
    it->moments = (moment *)grown(it->moments, it->moments_len, &it->moments_room, sizeof *it->moments);
    it->moments[it->moments_len++] = (moment){it->phases_len - 1, counts, from, length};
}

static bool is_among(uint32_t page, const uint32_t *pages, size_t length) {
    for (size_t i = 0; i < length; i++)
        if (pages[i] == page)
            return true;
    return false;
}

static bool is_marked(const record *it, uint32_t page) {
    return is_among(page, it->marks, it->marks_len);
}

/* Whether a page is sliced in a phase, as the driver told it. */
static bool is_split(const record *it, uint32_t page, uint64_t phase) {
    return is_among(page, it->phases[phase].split, it->phases[phase].split_len);
}

/* The likes of some seats, each as its page and a number of it, in order. */
typedef struct {
    uint64_t page, at;
} point;

typedef struct {
    point *points;
    size_t length;
} tally;

enum by { BY_PHASE, BY_START, BY_END, BY_LIKES };

static uint64_t number_of(const event *of, enum by by) {
    return by == BY_PHASE ? of->phase : by == BY_START ? of->start : by == BY_END ? of->end : of->likes;
}

static int compare(const void *one, const void *other) {
    const point *a = (const point *)one, *b = (const point *)other;
    if (a->page != b->page)
        return a->page < b->page ? -1 : 1;
    return a->at < b->at ? -1 : a->at > b->at;
}

/* The likes of the seats from one on. */
static tally tallied(const record *it, uint32_t first, uint32_t seats, enum by by) {
    tally made = {NULL, 0};
    size_t room = 0;
    for (uint32_t i = first; i < first + seats; i++) {
        const history *of = &it->histories[i];
        for (size_t n = 0; n < of->length; n++) {
            if (of->events[n].kind != LIKED)
                continue;
            made.points = (point *)grown(made.points, made.length, &room, sizeof *made.points);
            made.points[made.length++] = (point){of->events[n].page, number_of(&of->events[n], by)};
        }
    }
    if (made.length > 0)
        qsort(made.points, made.length, sizeof *made.points, compare);
    return made;
}

/* The place of the first point that isn't before one. */
static size_t place_of(const tally *of, uint64_t page, uint64_t at) {
    const point sought = {page, at};
    size_t low = 0, high = of->length;
    while (low < high) {
        size_t middle = (low + high) / 2;
        if (compare(&of->points[middle], &sought) < 0)
            low = middle + 1;
        else
            high = middle;
    }
    return low;
}

/* How many likes a page has whose number is below one. */
static uint64_t likes_below(const tally *of, uint64_t page, uint64_t at) {
    return place_of(of, page, at) - place_of(of, page, 0);
}

/* All that a count is compared with: the likes of all seats, and those of the seat that was shown it. */
typedef struct {
    tally by_phase, by_start, by_end, own_by_phase, own_by_likes;
} tallies;

/* A count has all likes of earlier phases and the seat's own before it, none of later phases and none of the seat's own
 * after it. It has no like that began after its call. Unless it was only glimpsed, it has each like that ended before
 * its call. */
static void check_count(const record *it, const tallies *of, uint32_t number, const event *look) {
    uint64_t first = it->counts[look->page], page = look->page, phase = look->phase;
    uint64_t own = likes_below(&of->own_by_likes, page, look->likes);
    uint64_t earlier = likes_below(&of->by_phase, page, phase);
    uint64_t least = earlier + own - likes_below(&of->own_by_phase, page, phase);
    uint64_t most =
        likes_below(&of->by_phase, page, phase + 1) - (likes_below(&of->own_by_phase, page, phase + 1) - own);
    uint64_t begun = likes_below(&of->by_start, page, look->end);
    uint64_t done = likes_below(&of->by_end, page, look->start);
    if (begun < most)
        most = begun;
    if (done > least && look->kind != GLIMPSED)
        least = done;
    if (look->count < first + least || look->count > first + most)
        fail(it, "seat %u, phase %llu: a look (%d) at page %u showed %llu, not from %llu to %llu", number,
             (unsigned long long)phase, (int)look->kind, look->page, (unsigned long long)look->count,
             (unsigned long long)(first + least), (unsigned long long)(first + most));
}

/* A request ran after its phase was released and before the end was announced. A look that was found may have run
 * later, up to the next release. A call that was between phases came once the end was announced. */
static void check_time(const record *it, uint32_t number, const event *made) {
    const phase_span *at = &it->phases[made->phase];
    bool has_next = made->phase + 1 < it->phases_len;
    uint64_t from = at->release.start, to = at->announcement.end;
    if (made->kind == WAS_BETWEEN)
        from = at->announcement.start;
    if (made->kind == WAS_BETWEEN || made->kind == FOUND)
        to = has_next ? it->phases[made->phase + 1].release.end : NEVER;
    if (made->end <= from || made->start >= to)
        fail(it, "seat %u: a call (%d) at the times %llu to %llu was in phase %llu", number, (int)made->kind,
             (unsigned long long)made->start, (unsigned long long)made->end, (unsigned long long)made->phase);
}

/* A look waits where its page is split, and nowhere else. A glance tells whether it is. */
static void check_wait(const record *it, uint32_t number, const event *made) {
    bool waits = made->kind == WAITED || made->kind == LACKED_ROOM;
    if (waits && !is_split(it, made->page, made->phase))
        fail(it, "seat %u: a look at page %u waits in phase %llu", number, made->page, (unsigned long long)made->phase);
    if (made->kind == LOOKED && is_split(it, made->page, made->phase))
        fail(it, "seat %u: a look at page %u doesn't wait in phase %llu", number, made->page,
             (unsigned long long)made->phase);
    bool glances = made->kind == GLANCED || made->kind == GLIMPSED;
    if (glances && is_split(it, made->page, made->phase) != (made->kind == GLIMPSED))
        fail(it, "seat %u: a glance at page %u tells something else than a page that is%s split in phase %llu", number,
             made->page, made->kind == GLIMPSED ? "n't" : "", (unsigned long long)made->phase);
}

static void check_seat(const record *it, tallies *of, uint32_t number) {
    const history *done = &it->histories[number];
    of->own_by_phase = tallied(it, number, 1, BY_PHASE);
    of->own_by_likes = tallied(it, number, 1, BY_LIKES);
    for (size_t n = 0; n < done->length; n++) {
        const event *made = &done->events[n];
        if (made->phase >= it->phases_len)
            fail(it, "seat %u was in phase %llu of %zu", number, (unsigned long long)made->phase, it->phases_len);
        check_time(it, number, made);
        check_wait(it, number, made);
        if (made->kind == LOOKED || made->kind == GLANCED || made->kind == GLIMPSED || made->kind == FOUND)
            check_count(it, of, number, made);
    }
    free(of->own_by_phase.points);
    free(of->own_by_likes.points);
}

/* Counts that were written have all likes up to their phase, and no other. */
static void check_moment(const record *it, const tally *by_phase, const moment *at) {
    size_t next = place_of(by_phase, at->from, 0);
    for (size_t i = 0; i < at->length; i++) {
        uint32_t page = at->from + (uint32_t)i;
        uint64_t right = it->counts[page];
        if (next < by_phase->length && by_phase->points[next].page == page) {
            right += likes_below(by_phase, page, at->phase + 1);
            next = place_of(by_phase, (uint64_t)page + 1, 0);
        }
        if (at->counts[i] != right)
            fail(it, "after phase %llu page %u had %llu, not %llu", (unsigned long long)at->phase, page,
                 (unsigned long long)at->counts[i], (unsigned long long)right);
    }
}

/* Notes the phases in which the looks that wait at a seat took half of its room. */
static void note_halves(const record *it, uint32_t number, bool *is_half_full) {
    const history *done = &it->histories[number];
    uint64_t waits = 0, phase = 0, half = it->options.room / 2;
    for (size_t n = 0; n < done->length; n++) {
        if (done->events[n].kind != WAITED)
            continue;
        waits = done->events[n].phase == phase ? waits + 1 : 1;
        phase = done->events[n].phase;
        if (waits >= half)
            is_half_full[phase] = true;
    }
}

/* A phase whose end nobody asked for had a seat half full of looks that wait. */
static void check_hints(const record *it) {
    bool *is_half_full = (bool *)calloc(it->phases_len, sizeof *is_half_full);
    if (is_half_full == NULL)
        abort();
    for (uint32_t i = 0; i < it->options.seats; i++)
        note_halves(it, i, is_half_full);
    for (size_t phase = 0; phase < it->phases_len; phase++)
        if (it->phases[phase].is_unasked && !is_half_full[phase])
            fail(it, "phase %zu was ended, and nobody asked for that", phase);
    free(is_half_full);
}

/* A page that is split, and that nobody has marked or proposed, was liked before. */
static void check_found(const record *it, const tally *by_phase) {
    for (size_t phase = 0; phase < it->phases_len; phase++)
        for (size_t n = 0; n < it->phases[phase].found_len; n++)
            if (likes_below(by_phase, it->phases[phase].found[n], phase) == 0)
                fail(it, "page %u is split in phase %zu, and nobody has liked it", it->phases[phase].found[n], phase);
}

/* Checks all that was noted in a round. */
static void check_events(const record *it) {
    uint32_t seats = it->options.seats;
    tallies of = {.by_phase = tallied(it, 0, seats, BY_PHASE),
                  .by_start = tallied(it, 0, seats, BY_START),
                  .by_end = tallied(it, 0, seats, BY_END)};
    for (uint32_t i = 0; i < seats; i++)
        check_seat(it, &of, i);
    for (size_t n = 0; n < it->moments_len; n++)
        check_moment(it, &of.by_phase, &it->moments[n]);
    check_hints(it);
    check_found(it, &of.by_phase);
    free(of.by_phase.points);
    free(of.by_start.points);
    free(of.by_end.points);
}

static void free_record(record *it) {
    for (uint32_t i = 0; i < LIKES_MAX_SEATS; i++)
        free(it->histories[i].events);
    for (size_t n = 0; n < it->moments_len; n++)
        free(it->moments[n].counts);
    free(it->moments);
    free(it->phases);
    free(it->counts);
    free(it->last);
}

#endif
