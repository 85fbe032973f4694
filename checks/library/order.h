/* Histories of a few deeds, and a search for one order that explains them.
 *
 * A deed likes a page, or shows the counts of some pages and the last likes of some users. Deeds that must keep their
 * order stand in a chain. One clock of all threads tells when the call of a deed began and when it returned. An order
 * explains a history if it keeps each chain's order and time, phases never fall along it, and each deed shows what the
 * likes before it have left. It keeps time if a deed whose call had returned before another's began comes first. */
#ifndef ORDER_H
#define ORDER_H

#include "harness.h"

enum { PAGES = 3, USERS = 4, CHAINS = 13, MOST_DEEDS = 15, NO_PAGE = PAGES };

typedef struct {
    uint64_t phase; /* twice its number, and one more at its end; or 0, if it isn't known */
    uint64_t begun, returned; /* by the clock; it hasn't returned yet at UINT64_MAX */
    bool is_like;
    uint32_t user, page;   /* of a like */
    uint32_t pages, users; /* what it shows, a bit for each */
    uint64_t counts[PAGES];
    uint32_t lasts[USERS]; /* pages, or NO_PAGE */
} deed;

typedef struct {
    deed deeds[MOST_DEEDS];
    uint32_t length;
} chain;

/* What likes have left. */
typedef struct {
    uint64_t counts[PAGES];
    uint32_t lasts[USERS];
} state;

typedef struct {
    state first;
    chain chains[CHAINS];
} history;

/* How far a search has come: in each chain, and with what. */
typedef struct {
    uint32_t at[CHAINS];
    state now;
} place;

/* The places where a search has been. In each entry stands the number of its search above a place's key. */
enum { MOST_PLACES = 1 << 20 };
static struct {
    uint64_t search, key;
} been[MOST_PLACES];
static uint64_t searches, places;

/* The clock: no two readings are alike. */
static uint64_t readings;

static inline uint64_t read_clock(void) {
    return __atomic_add_fetch(&readings, 1, __ATOMIC_SEQ_CST);
}

static inline const deed *next_of(const history *it, const place *from, uint32_t number) {
    return from->at[number] < it->chains[number].length ? &it->chains[number].deeds[from->at[number]] : NULL;
}

/* The lowest phase of the deeds that are left, or UINT64_MAX. Only deeds of this phase may come next: those behind them
 * in their chains are of no lower one. */
static inline uint64_t phase_of(const history *it, const place *from) {
    uint64_t lowest = UINT64_MAX;
    for (uint32_t i = 0; i < CHAINS; i++) {
        const deed *next = next_of(it, from, i);
        if (next != NULL && next->phase < lowest)
            lowest = next->phase;
    }
    return lowest;
}

/* When the first call of the deeds that are left returned. A chain's first one did before the others (keep_chains). */
static inline uint64_t return_of(const history *it, const place *from) {
    uint64_t first = UINT64_MAX;
    for (uint32_t i = 0; i < CHAINS; i++) {
        const deed *next = next_of(it, from, i);
        if (next != NULL && next->returned < first)
            first = next->returned;
    }
    return first;
}

/* The deed of a chain that may come next, if there is one: it is of the lowest phase, and no call of another had returned
 * when its own began. */
static inline const deed *ready_of(const history *it, const place *from, uint32_t number) {
    const deed *next = next_of(it, from, number);
    bool is_ready = next != NULL && next->phase == phase_of(it, from) && next->begun < return_of(it, from);
    return is_ready ? next : NULL;
}

/* Whether what a deed shows is so. */
static inline bool fits(const deed *it, const state *now) {
    bool is_so = true;
    for (uint32_t page = 0; page < PAGES; page++)
        is_so &= (it->pages >> page & 1) == 0 || it->counts[page] == now->counts[page];
    for (uint32_t user = 0; user < USERS; user++)
        is_so &= (it->users >> user & 1) == 0 || it->lasts[user] == now->lasts[user];
    return is_so;
}

/* A number that no other place of the search has: the counts follow from how far the chains have come. */
static inline uint64_t key_of(const place *it) {
    uint64_t key = 0;
    for (uint32_t i = 0; i < CHAINS; i++)
        key = key << 4 | it->at[i];
    for (uint32_t user = 0; user < USERS; user++)
        key = key << 2 | it->now.lasts[user];
    return key;
}

/* Notes that a search comes to a place. Whether it has been there. */
static inline bool was_at(const place *it) {
    uint64_t key = key_of(it), random = key, i = drawn(&random) % MOST_PLACES;
    while (been[i].search == searches && been[i].key != key)
        i = (i + 1) % MOST_PLACES;
    bool was_there = been[i].search == searches;
    been[i].search = searches;
    been[i].key = key;
    places += !was_there;
    hold(places < MOST_PLACES / 2, "a history is too long for a search");
    return was_there;
}

/* Runs all deeds that show what is so. They change nothing, so none of them makes another order impossible. */
static inline void run_on(const history *it, place *from) {
    bool has_run = true;
    while (has_run) {
        has_run = false;
        for (uint32_t i = 0; i < CHAINS; i++) {
            const deed *next = ready_of(it, from, i);
            if (next != NULL && !next->is_like && fits(next, &from->now)) {
                from->at[i]++;
                has_run = true;
            }
        }
    }
}

/* The place after one more deed of a chain. */
static inline place after(const history *it, place from, uint32_t number) {
    const deed *next = next_of(it, &from, number);
    from.at[number]++;
    if (next->is_like) {
        from.now.counts[next->page]++;
        from.now.lasts[next->user] = next->page;
    }
    return from;
}

/* Whether the rest of a history has an order. */
static bool has_rest(const history *it, place from) {
    run_on(it, &from);
    if (phase_of(it, &from) == UINT64_MAX)
        return true;
    if (was_at(&from))
        return false;
    for (uint32_t i = 0; i < CHAINS; i++) {
        const deed *next = ready_of(it, &from, i);
        if (next != NULL && next->is_like && has_rest(it, after(it, from, i)))
            return true;
    }
    return false;
}

static inline place first_of(const history *it) {
    place made;
    memset(&made, 0, sizeof made);
    made.now = it->first;
    return made;
}

/* Whether one order explains a history. */
static inline bool has_order(const history *it) {
    searches++;
    places = 0;
    return has_rest(it, first_of(it));
}

/* The same for the rest of a history, by trying one order after the other: 1 or 0, or -1 after so many deeds. */
static int rest_by_trying(const history *it, place from, uint64_t *left) {
    if (phase_of(it, &from) == UINT64_MAX)
        return 1;
    int found = 0;
    for (uint32_t i = 0; i < CHAINS && found == 0; i++) {
        const deed *next = ready_of(it, &from, i);
        if (next == NULL || (!next->is_like && !fits(next, &from.now)))
            continue;
        if (*left == 0)
            return -1;
        --*left;
        found = rest_by_trying(it, after(it, from, i), left);
    }
    return found;
}

static inline int has_order_by_trying(const history *it) {
    uint64_t left = 20000;
    return rest_by_trying(it, first_of(it), &left);
}

/* Adds a deed to a chain, which shows nothing yet. Its call began then, and has returned now. */
static inline deed *add_deed(history *it, uint32_t number, uint64_t phase, uint64_t begun) {
    chain *to = &it->chains[number];
    hold(number < CHAINS && to->length < MOST_DEEDS, "a history has too many deeds");
    deed *made = &to->deeds[to->length++];
    memset(made, 0, sizeof *made);
    made->phase = phase;
    made->begun = begun;
    made->returned = read_clock();
    return made;
}

static inline deed *add_like(history *it, uint32_t number, uint64_t phase, uint64_t begun, uint32_t user, uint32_t page) {
    deed *made = add_deed(it, number, phase, begun);
    made->is_like = true;
    made->user = user;
    made->page = page;
    return made;
}

/* A deed comes before those behind it in its chain, so before all that began after these had returned. */
static inline void keep_chains(history *it) {
    for (uint32_t i = 0; i < CHAINS; i++) {
        deed *own = it->chains[i].deeds;
        for (uint32_t n = it->chains[i].length; n-- > 1;)
            if (own[n].returned < own[n - 1].returned)
                own[n - 1].returned = own[n].returned;
    }
}

static inline void show_count(deed *it, uint32_t page, uint64_t count) {
    it->pages |= 1u << page;
    it->counts[page] = count;
}

static inline void show_last(deed *it, uint32_t user, uint32_t last) {
    it->users |= 1u << user;
    it->lasts[user] = last == LIKES_NO_PAGE ? (uint32_t)NO_PAGE : last;
}

#endif
