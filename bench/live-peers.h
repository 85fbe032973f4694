/* The plain ways to count likes that bench/live.c compares the live core with, each with a table of last likes. Each
 * runs rows of requests as the live core does. */
#ifndef LIVE_PEERS_H
#define LIVE_PEERS_H

#include "../checks/library/harness.h"

#include "live-options.h"

enum { ROW = 64, STRIDE = 16, PADDED = 64 };

/* A page's number among the words of a peer: as at the board of the live core, the first 64 have a line each. */
#define WORD(page) ((page) < PADDED ? (size_t)(page) * STRIDE : (size_t)PADDED * STRIDE + (page)-PADDED)
enum { MOST_WORDS_OF_PAGES = PADDED * STRIDE + MOST_PAGES };

typedef struct player player;

typedef struct {
    const char *name;
    void (*row)(player *, const likes_request *, likes_answer *);
    uint32_t period; /* of the live core: in microseconds, from the end of a split phase to that of the next */
    uint32_t look;   /* what its looks are */
    bool drives;     /* whether its seats make turns of the driver */
    bool is_free;    /* its threads hold no seats, of which there are 16 for each processor, at most 64 */
    bool is_any;     /* each of its threads serves all users */
} kind;

/* What a user liked last, as a record with a version. */
typedef struct {
    uint32_t version, last;
} user_record;

/* How many looks waited how long: in place 16 * p + n those of n * 2^p nanoseconds and a little more. */
typedef struct {
    uint64_t counts[64 * 16], worst, all, asked;
} waits;

struct player {
    const kind *of;
    uint32_t number, threads;
    bool is_timed;
    likes_request *ring;
    uint32_t *last;
    user_record *users; /* in place of `last`, for transactions */
    uint64_t *shard;
    uint64_t done, rows, *began, worked; /* the processor time that it took, in nanoseconds */
    likes_seat *seat; /* where the thread holds it */
    likes_writer *writer;
    waits waits;
    pthread_t thread;
    char apart[128];
};

/* The counts of the peers. */
static union {
    uint64_t words[MOST_WORDS_OF_PAGES];
    struct {
        pthread_mutex_t lock;
        uint64_t count;
        char apart[64];
    } locked[MOST_PAGES];
    struct {
        uint32_t version;
        uint64_t count;
        char apart[48];
    } records[MOST_PAGES];
} counts;
static uint64_t shards[MOST_THREADS][MOST_WORDS_OF_PAGES];

/* A peer: how it adds a like to `page`, and how it reads the page's count. */
#define PEER(name, add, read)                                                             \
    static void name(player *it, const likes_request *row, likes_answer *answers) {       \
        for (size_t i = 0; i < ROW; i++) {                                                \
            uint32_t page = row[i].page, *last = &it->last[row[i].user / it->threads];    \
            if (row[i].op == LIKES_LIKE) {                                                \
                add;                                                                      \
                *last = page;                                                             \
                answers[i].status = LIKES_LIKED;                                          \
            } else {                                                                      \
                answers[i].count = read;                                                  \
                answers[i].last = *last;                                                  \
                answers[i].status = LIKES_SEEN;                                           \
            }                                                                             \
        }                                                                                 \
    }

static uint64_t locked_count(uint32_t page, uint64_t more) {
    pthread_mutex_lock(&counts.locked[page].lock);
    uint64_t count = counts.locked[page].count += more;
    pthread_mutex_unlock(&counts.locked[page].lock);
    return count;
}

static uint64_t sum_of_shards(uint32_t page, uint32_t threads) {
    uint64_t sum = 0;
    for (uint32_t i = 0; i < threads; i++)
        sum += __atomic_load_n(&shards[i][WORD(page)], __ATOMIC_RELAXED);
    return sum;
}

static void add_to_shard(uint64_t *shard, uint32_t page) {
    __atomic_store_n(&shard[WORD(page)], shard[WORD(page)] + 1, __ATOMIC_RELAXED);
}

PEER(relaxed, __atomic_fetch_add(&counts.words[WORD(page)], 1, __ATOMIC_RELAXED),
     __atomic_load_n(&counts.words[WORD(page)], __ATOMIC_RELAXED))
PEER(sequential, __atomic_fetch_add(&counts.words[WORD(page)], 1, __ATOMIC_SEQ_CST),
     __atomic_load_n(&counts.words[WORD(page)], __ATOMIC_SEQ_CST))
PEER(mutex, locked_count(page, 1), locked_count(page, 0))
PEER(sharded, add_to_shard(it->shard, page), sum_of_shards(page, it->threads))

/* The last likes of all users, which all threads write. */
static uint32_t lasts[MOST_USERS];

/* A peer whose threads serve all users: how it adds a like to `page`, and how it reads the page's count. */
#define PEER_OF_ANY(name, order, add, read)                                              \
    static void name(player *it, const likes_request *row, likes_answer *answers) {      \
        (void)it;                                                                         \
        for (size_t i = 0; i < ROW; i++) {                                                \
            uint32_t page = row[i].page, *last = &lasts[row[i].user];                     \
            if (row[i].op == LIKES_LIKE) {                                                \
                add;                                                                      \
                __atomic_store_n(last, page, order);                                      \
            } else {                                                                      \
                answers[i].count = read;                                                  \
                answers[i].last = __atomic_load_n(last, order);                           \
            }                                                                             \
        }                                                                                 \
    }

PEER_OF_ANY(relaxed_any, __ATOMIC_RELAXED, __atomic_fetch_add(&counts.words[WORD(page)], 1, __ATOMIC_RELAXED),
            __atomic_load_n(&counts.words[WORD(page)], __ATOMIC_RELAXED))
PEER_OF_ANY(sequential_any, __ATOMIC_SEQ_CST, __atomic_fetch_add(&counts.words[WORD(page)], 1, __ATOMIC_SEQ_CST),
            __atomic_load_n(&counts.words[WORD(page)], __ATOMIC_SEQ_CST))
PEER_OF_ANY(sharded_any, __ATOMIC_RELAXED, add_to_shard(it->shard, page), sum_of_shards(page, it->threads))

/* Waits for a record that another thread holds. */
static void pause_for(unsigned tries) {
    if (tries % 256 == 255)
        sched_yield();
}

/* A record is held while its version is odd. */
static uint32_t free_version(const uint32_t *version) {
    uint32_t now = __atomic_load_n(version, __ATOMIC_ACQUIRE);
    for (unsigned tries = 0; now % 2 == 1; tries++) {
        pause_for(tries);
        now = __atomic_load_n(version, __ATOMIC_ACQUIRE);
    }
    return now;
}

/* Holds a record if it has still this version. */
static bool holds_at(uint32_t *version, uint32_t at) {
    return __atomic_compare_exchange_n(version, &at, at + 1, false, __ATOMIC_ACQUIRE, __ATOMIC_RELAXED);
}

static void hold_record(uint32_t *version) {
    while (!holds_at(version, free_version(version)))
        ;
}

static void let_go(uint32_t *version) {
    __atomic_store_n(version, *version + 1, __ATOMIC_RELEASE);
}

static void write_like(user_record *user, uint32_t page) {
    __atomic_store_n(&user->last, page, __ATOMIC_RELAXED);
    __atomic_store_n(&counts.records[page].count, counts.records[page].count + 1, __ATOMIC_RELAXED);
}

static void read_look(const user_record *user, uint32_t page, likes_answer *answer) {
    answer->count = __atomic_load_n(&counts.records[page].count, __ATOMIC_RELAXED);
    answer->last = __atomic_load_n(&user->last, __ATOMIC_RELAXED);
}

/* Two-phase locking: holds the user's record and the page's, and lets both go at the end. */
static void lock_both(user_record *user, const likes_request *request, likes_answer *answer) {
    uint32_t *page = &counts.records[request->page].version;
    hold_record(&user->version);
    hold_record(page);
    if (request->op == LIKES_LIKE)
        write_like(user, request->page);
    else
        read_look(user, request->page, answer);
    let_go(page);
    let_go(&user->version);
}

/* Optimistic validation: reads both records, holds those that it writes if nobody has written them since, and else
 * begins anew. Whether it is done. */
static bool validates(user_record *user, const likes_request *request, likes_answer *answer) {
    uint32_t *page = &counts.records[request->page].version;
    uint32_t user_was = free_version(&user->version), page_was = free_version(page);
    read_look(user, request->page, answer);
    if (request->op != LIKES_LIKE) {
        __atomic_thread_fence(__ATOMIC_ACQUIRE);
        return __atomic_load_n(&user->version, __ATOMIC_RELAXED) == user_was &&
               __atomic_load_n(page, __ATOMIC_RELAXED) == page_was;
    }
    if (!holds_at(&user->version, user_was))
        return false;
    bool is_held = holds_at(page, page_was);
    if (is_held) {
        write_like(user, request->page);
        let_go(page);
    }
    let_go(&user->version);
    return is_held;
}

static void validate_both(user_record *user, const likes_request *request, likes_answer *answer) {
    for (unsigned tries = 0; !validates(user, request, answer); tries++)
        pause_for(tries);
}

/* A peer that makes each request a transaction over two records. */
#define TRANSACTIONS(name, transact)                                                  \
    static void name(player *it, const likes_request *row, likes_answer *answers) {   \
        for (size_t i = 0; i < ROW; i++) {                                            \
            transact(&it->users[row[i].user / it->threads], &row[i], &answers[i]);    \
            answers[i].status = row[i].op == LIKES_LIKE ? LIKES_LIKED : LIKES_SEEN;   \
        }                                                                             \
    }

TRANSACTIONS(locking, lock_both)
TRANSACTIONS(optimistic, validate_both)

static bool has_records(const kind *of) {
    return of->row == locking || of->row == optimistic;
}

/* Makes a peer ready: counts of 0. */
static void clear_counts(const kind *of, uint32_t pages) {
    memset(counts.words, 0, (PADDED * STRIDE + pages) * sizeof *counts.words);
    for (uint32_t page = 0; of->row == mutex && page < pages; page++) {
        pthread_mutex_init(&counts.locked[page].lock, NULL);
        counts.locked[page].count = 0;
    }
    if (has_records(of))
        memset(counts.records, 0, pages * sizeof *counts.records);
}

/* A page's count at the end. */
static uint64_t last_count(const kind *of, uint32_t page, uint32_t threads) {
    if (has_records(of))
        return counts.records[page].count;
    if (of->row == sharded || of->row == sharded_any)
        return sum_of_shards(page, threads);
    return of->row == mutex ? locked_count(page, 0) : counts.words[WORD(page)];
}

#endif
