/* likes.h: the live core of likes, for C11 and C++17.
 *
 * A service counts likes exactly while several threads add them. A host, that is, your program, opens a service and
 * takes its seats. Its threads call likes_seat_like and likes_seat_look on the seats, and somebody calls
 * likes_driver_turn when a phase is due. likes_service.h does that part for you: begin there. EMBEDDING.md is the
 * guide.
 *
 * No call changes errno.
 *
 * Rules for the host
 *   - Pointers. Every pointer is valid and aligned for its type, and an array has the stated length. What two pointers
 *     of one call point to doesn't overlap. What a call writes needs no value before.
 *   - NULL. It may be an array of no entries, counts that are all 0, or a handle that is to be freed. Any other array
 *     that is NULL is refused, and so are NULL options and a NULL driver of likes_open: by LIKES_NULL, or by 0 where a
 *     call gives a number. No other pointer of these calls is NULL.
 *   - likes_close gets the seats of that driver's service, each once. (It refuses any other seat: that is tested, and
 *     not proved. It is a call on the driver and on all these seats.)
 *   - One call at a time on each driver, each seat, each client and each shared service, from any thread. Two calls on
 *     the same object are ordered by a lock, by a thread's start or join, or by a sequentially consistent atomic. Only
 *     likes_phase_now may be called by several threads at once, until one of them frees the phase. Clients need no
 *     order among each other.
 *   - A handle (likes_driver, likes_seat, likes_phase, likes_shared or likes_client) begins as {0}, which is empty.
 *     Only the call that fills it and the one that frees or closes it, or closes its service, change it. After a copy,
 *     only one of the two is used.
 *   - No call is made from a signal handler, or in the child of a fork.
 *   - Every seat that isn't gone is called at least once while a phase is ending, by likes_seat_turn or
 *     likes_client_turn if there is nothing else to do. A seat that isn't called holds up all others.
 *
 * What the library does
 *   - It tests every number, but for the seats of likes_seat_of, and period_us, which is a service's. A wrong one is an
 *     error of its own, and what was asked for isn't done. Proposed numbers that are no pages do nothing. A like, a
 *     look, a glance or a turn of a seat does the phase work first: a seat that is between two phases answers
 *     LIKES_BETWEEN to a wrong user too.
 *   - No call waits or sleeps, beside what malloc and free do. A client tries a lock, and is told LIKES_BUSY if another
 *     thread has it. Only likes_open, likes_shared_open, likes_client_open and likes_shared_close take memory. Beside
 *     them, only likes_close, likes_client_close and the calls that free give some back.
 */
#ifndef LIKES_H
#define LIKES_H

#include <stdbool.h>
#include <stddef.h>
#include <stdint.h>

#ifdef __cplusplus
extern "C" {
#endif

/* The version of this file and of the library, 0.6: 1,000 times the number of the ABI, plus a number within it.
 * EMBEDDING.md says when it changes. */
#define LIKES_VERSION 6

/* The version of the library that the program runs with. A shared library may be newer than this file. */
uint32_t likes_version(void);

/* The coordinator of a service: it ends and releases phases. */
typedef struct likes_driver {
    void *at;
    uint64_t seats; /* how many it has: likes_driver_seats */
} likes_driver;

/* A worker of a service. */
typedef struct likes_seat {
    void *at;
} likes_seat;

/* The phase of a service, which can be read while other threads call the driver and the seats. */
typedef struct likes_phase {
    void *at;
} likes_phase;

/* A service that threads share, each by a client of its own ("Clients", below). */
typedef struct likes_shared {
    void *at;
    uint64_t seats; /* how many it has: likes_shared_seats */
} likes_shared;

/* One thread's right to call a shared service. */
typedef struct likes_client {
    void *at;
} likes_client;

#define LIKES_MAX_SEATS 64u
#define LIKES_MAX_PAGES 16777216u
#define LIKES_MAX_MARKS 64u
#define LIKES_MAX_SPLIT 64u /* how many pages are split at a time, marked ones among them */
#define LIKES_MAX_ROOM 4096u
#define LIKES_MAX_HOT 1000000u
#define LIKES_MAX_PERIOD_US 1000000000u
#define LIKES_MAX_COUNT UINT64_C(1000000000000000000)

/* Instead of a page number: the user has no last like. */
#define LIKES_NO_PAGE UINT32_MAX

/* Instead of `hot`: the library finds no hot pages. */
#define LIKES_NO_HOT UINT32_MAX

/* What a service is opened with. A field that is left out is 0, and that means its default, if it has one. */
typedef struct likes_options {
    const uint64_t *counts; /* the initial count of each page, at most LIKES_MAX_COUNT; NULL: all are 0 */
    size_t pages;           /* how many: 1 to LIKES_MAX_PAGES. Pages are numbered from 0, and take 8 bytes each. */
    const uint32_t *marks;  /* the pages that are split in every split phase, in any order, no two alike */
    size_t marks_len;       /* 1 to LIKES_MAX_MARKS; without marks 0, and marks is NULL */
    const uint32_t *lasts;  /* the page of each user's last like, by user number, or LIKES_NO_PAGE */
    size_t lasts_len;       /* as many as users; 0, and lasts is NULL: no user has a last like */
    uint32_t users;         /* how many: 1 to 2^32 - 1. Users are numbered from 0, and take 4 bytes each. */
    uint32_t seats;         /* 1 to LIKES_MAX_SEATS; 0: 16 for each processor, and at most 64 */
    uint32_t room;      /* how many looks a seat keeps, waiting and found ones together: 1 to LIKES_MAX_ROOM; 0: 64 */
    uint32_t hot;       /* about how many likes between two choices make a page hot; earlier likes count too, but less
                           ("Hot pages" of EMBEDDING.md): 1 to LIKES_MAX_HOT, of which 1 to 511 act as 512; 0:
                           512. LIKES_NO_HOT: only marked and proposed pages are split. */
    uint32_t period_us; /* of a service of likes_service.h: from the end of one split phase to that of the next, in
                           microseconds: 1 to LIKES_MAX_PERIOD_US; 0: 1,000 */
    uint32_t reserved;  /* 0 */
    uint64_t reserved_too[5]; /* 0 */
} likes_options;

/* What calls answer. Errors begin at LIKES_FIRST_ERROR. */
enum likes_status {
    LIKES_OK = 0, /* done */

    /* outcomes of a seat's calls */
    LIKES_LIKED = 1,      /* one like was added, and the page is now its user's last */
    LIKES_SEEN = 2,       /* the look or the glance was answered, and the count is exact */
    LIKES_GLIMPSED = 18,  /* the glance was answered, but the page is split now: its count may lack likes */
    LIKES_WAITS = 3,      /* the look will be found later, with its tag, by likes_seat_take_found */
    LIKES_RUNS = 4,       /* the seat runs a phase */
    LIKES_BETWEEN = 5,    /* not run: the seat is between two phases. Try again, or do other work first. */
    LIKES_NO_ROOM = 6,    /* not run: the page is split, and no more looks may wait. Take found ones. */
    LIKES_LIKE_LIMIT = 7, /* not run: the seat has had 2^56 likes */
    LIKES_GONE = 8,       /* not run: the seat has retired */

    /* outcomes of a driver's calls */
    LIKES_GOES_ON = 9,     /* the phase goes on */
    LIKES_ANNOUNCED = 10,  /* the end of the phase was announced */
    LIKES_NOT_ALL_IN = 11, /* the phase is ending, and a seat has yet to answer */
    LIKES_RELEASED = 12,   /* the next phase has begun */
    LIKES_ENDED = 13,      /* all seats are gone, and this turn has nothing to do */
    LIKES_COUNTED = 14,    /* the counts of these pages were written */
    LIKES_NO_MOMENT = 15,  /* nothing written: the counts aren't those of the end of a joined phase */
    LIKES_NOT_ENDED = 16,  /* nothing written: a seat isn't gone yet, or a split phase goes on */
    LIKES_ALL_TAKEN = 17,  /* all seats are taken; or the phase is */

    /* outcomes of a client's calls */
    LIKES_BUSY = 19, /* not run: another thread has the seat, the driver or the desk. Nothing was done. */
    LIKES_NONE = 20, /* there is no found look */

    /* errors: what was asked for isn't done. A seat may have done its phase work. */
    LIKES_EMPTY = 100,  /* the handle is empty */
    LIKES_IN_USE = 101, /* the handle that was to be filled isn't empty */
    LIKES_NO_MEMORY = 102,
    LIKES_UNKNOWN_USER = 103,
    LIKES_OTHER_SEAT = 104, /* the user belongs to another seat */
    LIKES_UNKNOWN_PAGE = 105,
    LIKES_UNKNOWN_OP = 106,     /* the operation isn't one of likes_op, or the request's reserved field isn't 0 */
    LIKES_UNKNOWN_END = 107,    /* the end isn't one of likes_end */
    LIKES_WRONG_RANGE = 108,    /* the range goes past the last page, or past the seat's last user */
    LIKES_WRONG_RESERVED = 109, /* a reserved field of the options isn't 0 */
    LIKES_WRONG_PAGES = 110,    /* there are no pages, or more than LIKES_MAX_PAGES; or counts hasn't one for each */
    LIKES_WRONG_MARKS = 111,    /* more than LIKES_MAX_MARKS, a mark of no page, two of the same, or marks that can't
                                   all have buckets of their own, as very few lists of many marks; or an array without
                                   its length, or a length without an array */
    LIKES_WRONG_COUNT = 112,    /* an initial count is over LIKES_MAX_COUNT */
    LIKES_WRONG_SEATS = 113,    /* more than LIKES_MAX_SEATS; or the array hasn't all seats of the service, in order */
    LIKES_WRONG_USERS = 114,
    LIKES_WRONG_ROOM = 115,
    LIKES_WRONG_HOT = 116,
    LIKES_WRONG_LASTS = 117,  /* there are last likes, but not one for each user, or one is of no page; or an array
                                 without its length, or a length without an array */
    LIKES_NULL = 118,         /* a pointer is NULL that may not be */
    LIKES_OPEN_CLIENT = 119,  /* a client of the service is open */
    LIKES_UNKNOWN_SEAT = 1003 /* the service has fewer seats */
};

#define LIKES_FIRST_ERROR 100u

/* Whether a status says that what was asked for is done: LIKES_OK, LIKED, SEEN, GLIMPSED and COUNTED. The others below
 * LIKES_FIRST_ERROR are outcomes, which each call lists, and those from there on are errors. */
static inline bool likes_is_success(uint32_t status) {
    return status <= LIKES_SEEN || status == LIKES_GLIMPSED || status == LIKES_COUNTED;
}

/* Opens a service. The counts and the last likes of an earlier one, opened again, go on where it ended. LIKES_OK fills
 * the driver. Else the handle stays as it was, and the answer is the first of these that applies: LIKES_NULL, IN_USE,
 * WRONG_RESERVED, WRONG_PAGES, WRONG_MARKS, WRONG_COUNT, WRONG_SEATS, WRONG_USERS, WRONG_LASTS, WRONG_ROOM, WRONG_HOT,
 * NO_MEMORY. (Where counts is NULL, it takes 8 bytes more for each page meanwhile. If it gets none, NO_MEMORY may come
 * before other errors.) */
uint32_t likes_open(const likes_options *options, likes_driver *driver);

/* How many seats a service has, and 0 of an empty handle or NULL. */
uint32_t likes_driver_seats(const likes_driver *driver);

/* Hands out the seats, at the first call seat 0, then 1 and so on: LIKES_OK, or the first that applies of LIKES_IN_USE,
 * EMPTY and ALL_TAKEN. A phase changes only when every seat has answered, so take them all. */
uint32_t likes_driver_take_seat(likes_driver *driver, likes_seat *seat);

/* Hands out the phase, once: LIKES_OK, or the first that applies of LIKES_IN_USE, EMPTY and ALL_TAKEN. */
uint32_t likes_driver_take_phase(likes_driver *driver, likes_phase *phase);

/* The phase that the driver has last released, for any thread at any time: it only reads. The phase may be over by
 * then. An empty handle gives 0. */
uint64_t likes_phase_now(const likes_phase *phase);

/* The seat of a user, in a service with this many seats (1 or more). */
uint32_t likes_seat_of(uint32_t user, uint32_t seats);

typedef struct likes_answer {
    uint64_t count;  /* of LIKES_SEEN and GLIMPSED: the page's count */
    uint32_t last;   /* of LIKES_SEEN and GLIMPSED: the page of the user's last like, or LIKES_NO_PAGE */
    uint32_t status; /* a likes_status */
} likes_answer;

/* A look that had to wait. */
typedef struct likes_found {
    uint64_t tag;
    uint64_t count; /* the page's count in the phase in which it ran */
    uint64_t asked; /* the phase in which it was asked */
    uint64_t ran;   /* the phase in which it ran, the next one */
    uint32_t user;
    uint32_t page;
    uint32_t last;     /* the page of the user's last like at that time, or LIKES_NO_PAGE */
    uint32_t reserved; /* 0 */
} likes_found;

/* A call of a seat answers the first that applies of LIKES_EMPTY, GONE, BETWEEN, UNKNOWN_USER, OTHER_SEAT,
 * UNKNOWN_PAGE, LIKE_LIMIT and NO_ROOM, as far as it can answer them, or else what it did. (likes_seat_last and
 * likes_seat_lasts do no phase work, so they answer neither GONE nor BETWEEN.)
 *
 * One thread could have done all that the seats did, one request after the other, with each seat's requests in their
 * order and phases that never fall. The order is that of each call's step on shared memory; so a call that returned
 * before another began comes first, on whatever threads. A look that waits has its place where it is found. Each count
 * of LIKES_SEEN is the one that this thread would see. That of LIKES_GLIMPSED need not be: it may lack likes. What is
 * proved of all seats together is said of a service that has ended (likes_close, likes_shared_close). */

/* Adds one like: LIKES_LIKED, BETWEEN, GONE, LIKE_LIMIT, EMPTY, UNKNOWN_USER, OTHER_SEAT or UNKNOWN_PAGE. */
uint32_t likes_seat_like(likes_seat *seat, uint32_t user, uint32_t page);

/* Looks at a user's last like and a page's count: LIKES_SEEN, WAITS, BETWEEN, NO_ROOM, GONE, EMPTY, UNKNOWN_USER,
 * OTHER_SEAT or UNKNOWN_PAGE. tag is any number of yours, which comes back when the look is found. The answer is always
 * written; its count and last are 0 but for LIKES_SEEN. */
uint32_t likes_seat_look(likes_seat *seat, uint32_t user, uint32_t page, uint64_t tag, likes_answer *answer);

/* Looks at once, in split phases too: LIKES_SEEN, GLIMPSED, BETWEEN, GONE, EMPTY, UNKNOWN_USER, OTHER_SEAT or
 * UNKNOWN_PAGE. LIKES_SEEN, of a page that isn't split now, has what a look shows. LIKES_GLIMPSED, of one that is, has
 * the user's last like, and a count with all likes of earlier phases and the seat's own. It may lack other seats' likes
 * of the present phase. */
uint32_t likes_seat_glance(likes_seat *seat, uint32_t user, uint32_t page, likes_answer *answer);

/* Takes the next found look, in the order of asking. False: there is none, and nothing is written. It works at any
 * time, also when the seat is gone. At a seat of likes_service.h, looks of the service aren't among them. */
bool likes_seat_take_found(likes_seat *seat, likes_found *found);

/* Writes the page of a user's last like, or LIKES_NO_PAGE: LIKES_OK. Else nothing is written: the first that applies of
 * LIKES_EMPTY, UNKNOWN_USER and OTHER_SEAT. It works at any time, also when the seat is gone. */
uint32_t likes_seat_last(likes_seat *seat, uint32_t user, uint32_t *page);

/* Writes the pages of the last likes of several of the seat's users, as many as the array has: LIKES_OK. They are users
 * number from, from + 1 and so on of the seat. User u is number u / seats of its seat, so number n of seat s is user
 * n * seats + s. Else nothing is written: the first that applies of LIKES_EMPTY and WRONG_RANGE. It works at any time.
 *
 * After LIKES_COUNTED of likes_driver_snapshot, and until a turn releases the next phase, the last likes of all seats
 * are of the same moment as the counts. */
uint32_t likes_seat_lasts(likes_seat *seat, uint32_t from, uint32_t *pages, size_t pages_len);

/* What is asked for in a request. */
enum likes_op { LIKES_LIKE = 0, LIKES_LOOK = 1, LIKES_GLANCE = 2 };

typedef struct likes_request {
    uint64_t tag;      /* of a look: any number of yours, which comes back when the look is found */
    uint32_t user;     /* below the service's users */
    uint32_t page;     /* below the number of pages */
    uint32_t op;       /* a likes_op */
    uint32_t reserved; /* 0: a request is filled whole, as by {.op = LIKES_LOOK} */
} likes_request;

/* Runs requests one by one, and gives the number of those done. It stops before the first that is LIKES_BETWEEN or
 * LIKES_NO_ROOM, and at the end of the shorter array. The answer at which it stopped has that status, and those behind
 * it stay as they were. LIKES_UNKNOWN_OP comes before all that a seat's call answers, and without phase work. At an
 * empty handle it does none, and the first answer is LIKES_EMPTY; if requests is NULL and has a length, LIKES_NULL. */
size_t likes_seat_run(likes_seat *seat, const likes_request *requests, size_t requests_len, likes_answer *answers,
                      size_t answers_len);

/* Does what the phase asks of the seat, and nothing else: LIKES_RUNS, BETWEEN, GONE or EMPTY. */
uint32_t likes_seat_turn(likes_seat *seat);

/* Leaves, where the seat runs a joined phase, ending or not: LIKES_GONE. Looks that waited are found first. In a split
 * phase, and between two phases, it is likes_seat_turn: call it again. A seat that is gone holds nobody up. It keeps
 * its likes, its users' last likes and its found looks. */
uint32_t likes_seat_retire(likes_seat *seat);

/* Brings a seat that is gone back into the present phase: LIKES_RUNS. If that phase is ending, or if other seats kept
 * changing the phase word, nothing is done: LIKES_BETWEEN. Call it again, after a turn of the driver. Once last counts
 * were written, it is LIKES_BETWEEN for good. For a seat that isn't gone it is likes_seat_turn. */
uint32_t likes_seat_come_back(likes_seat *seat);

/* The phase that the seat runs or has answered last, and 0 once it is gone. Phases with odd numbers are split. */
uint64_t likes_seat_phase(likes_seat *seat);

/* Whether a turn may end the phase. */
enum likes_end {
    LIKES_NO_END = 0,           /* a joined phase goes on, and a split one unless a seat asks for its end */
    LIKES_END_IF_IT_SERVES = 1, /* a joined phase goes on if no page would be split in the next one */
    LIKES_END = 2               /* in any case, for a snapshot */
};

/* Makes a look, and does at most one thing for the phases: LIKES_ANNOUNCED, NOT_ALL_IN, RELEASED, GOES_ON or ENDED; or
 * the first that applies of LIKES_EMPTY and UNKNOWN_END. end is a likes_end.
 *
 * With LIKES_NO_END, a split phase ends if a seat asks for it, once the looks that wait there take half of its room. A
 * joined phase that all seats have left goes on, whatever is asked. An ending phase is released once every seat has
 * answered it or is gone, also where all are gone. So turns with LIKES_END_IF_IT_SERVES or LIKES_END, made when all
 * seats are gone, lead to a joined phase, and there to LIKES_ENDED. */
uint32_t likes_driver_turn(likes_driver *driver, uint32_t end);

/* Writes the counts of the pages from, from + 1 and so on, as many as the array has, where a joined phase is ending and
 * every seat has answered it or is gone: LIKES_COUNTED. They have all likes of that phase and of those before it. Until
 * a turn releases the next phase, further calls write the counts of other pages at the same moment. Else nothing is
 * written: the first that applies of LIKES_EMPTY, WRONG_RANGE and NO_MOMENT. */
uint32_t likes_driver_snapshot(likes_driver *driver, uint32_t from, uint64_t *counts, size_t counts_len);

/* Writes the pages that are split in the present split phase, or were in the last one, no two alike and the marked ones
 * among them. It answers how many it wrote: as many as the array has room for, and with room for LIKES_MAX_SPLIT all of
 * them. Before the first split phase they are the marked ones. Of an empty handle, or to NULL, it writes none. */
size_t likes_driver_split_pages(likes_driver *driver, uint32_t *pages, size_t pages_len);

/* Proposes pages to be split beside the marked ones, the first LIKES_MAX_SPLIT of the array, in place of those that the
 * library finds by itself: LIKES_OK, or LIKES_EMPTY. They hold for all split phases from the next one or the one after
 * it on, until those of a later call take their place. An array of no entries: the library finds pages by itself again.
 *
 * A turn that ends a split phase takes the pages of the last call for the next one. So does a turn that may end a
 * joined phase, if no page would be split in the next one. Other turns leave what was taken. Numbers that are no pages,
 * and doubled and marked ones, do nothing. A page is left out if it shares one of the 1,024 buckets of a seat's table
 * with a page that is split, or if LIKES_MAX_SPLIT others are split. */
uint32_t likes_driver_propose(likes_driver *driver, const uint32_t *pages, size_t pages_len);

/* The present phase. Phases with odd numbers are split. */
uint64_t likes_driver_phase(likes_driver *driver);

/* Writes the final counts of the pages from, from + 1 and so on, as many as the array has, where all seats are gone in
 * a joined phase: LIKES_COUNTED. Call it as often as you like, for any range: a page has the same count each time. With
 * the first LIKES_COUNTED the service is over. Its phase is never released, likes_driver_turn answers LIKES_ENDED,
 * likes_driver_snapshot LIKES_NO_MOMENT and likes_driver_take_seat LIKES_ALL_TAKEN. The driver stays until it is freed.
 *
 * Else nothing is written: the first that applies of LIKES_EMPTY, WRONG_RANGE and NOT_ENDED, where a seat isn't gone or
 * a split phase goes on. The joined phase is ending then if a seat came back during the call. Call likes_driver_turn
 * with LIKES_END_IF_IT_SERVES until it answers LIKES_ENDED, and try again. */
uint32_t likes_driver_last_counts(likes_driver *driver, uint32_t from, uint64_t *counts, size_t counts_len);

/* Ends a service whose seats are all gone: LIKES_COUNTED. It writes the final count of each page, its first count and
 * all likes that the seats counted. It frees the driver and all seats, and leaves their handles empty. seats has all of
 * them, seat 0 first, and counts one entry for each page. Take found looks and read last likes before that.
 *
 * Else nothing is done: the first that applies of LIKES_NULL, EMPTY and WRONG_PAGES; LIKES_WRONG_SEATS if there are not
 * as many seats as the service has; or, of the first seat in the array that isn't right, LIKES_EMPTY, WRONG_SEATS if it
 * isn't the service's seat with that number, or NOT_ENDED if it isn't gone. */
uint32_t likes_close(likes_driver *driver, likes_seat *seats, size_t seats_len, uint64_t *counts, size_t counts_len);

/* Give back memory, and leave the handle empty. With an empty handle or NULL they do nothing. Found looks that were not
 * taken are lost. A seat that is freed before it is gone holds up all others for ever. */
void likes_seat_free(likes_seat *seat);
void likes_driver_free(likes_driver *driver);
void likes_phase_free(likes_phase *phase);

/* Clients.
 *
 * Threads share a service without locks of their own: each has a client, and calls any seat and the driver by it. A
 * call is made if no other thread has that seat or the driver then. Otherwise the answer is LIKES_BUSY, and nothing was
 * done: try again, or do other work first. Once all clients are closed and all seats are gone, likes_shared_close ends
 * the service. One thread could have done all that all clients did, one call after the other, and each page's last
 * count is its first count and the likes of it that all clients were told.
 *
 * A call that names a seat answers the first that applies of LIKES_EMPTY, UNKNOWN_SEAT and BUSY, or else what the call
 * of likes_seat_ with that name does. A user's seat is likes_seat_of, and at another one the user is refused, as
 * LIKES_OTHER_SEAT. A call of the driver answers LIKES_EMPTY or BUSY, or else what the call of likes_driver_ does.
 * Where a likes_driver_ call has an error of its own, that comes before BUSY. */

/* Opens a service that threads share, as likes_open does. */
uint32_t likes_shared_open(const likes_options *options, likes_shared *shared);

/* How many seats it has, and 0 of an empty handle or NULL. */
uint32_t likes_shared_seats(const likes_shared *shared);

/* Hands out the phase, as likes_driver_take_phase does. */
uint32_t likes_shared_take_phase(likes_shared *shared, likes_phase *phase);

/* Makes a client, of which any thread may make the calls: LIKES_OK, or the first that applies of LIKES_IN_USE, EMPTY,
 * BUSY, where another thread closes a client, and NO_MEMORY. */
uint32_t likes_client_open(likes_shared *shared, likes_client *client);

/* Ends a client: LIKES_OK, and its handle is empty; or LIKES_EMPTY, or BUSY where another thread opens or closes one.
 * Seats that it has locked are unlocked. Every client has to be closed, or its service can't be. */
uint32_t likes_client_close(likes_client *client);

/* Ends a service whose clients are closed and whose seats are gone, and writes the final count of each page:
 * LIKES_COUNTED. The handle is empty then. counts has one entry for each page. Else nothing is done: the first that
 * applies of LIKES_NULL, EMPTY, WRONG_PAGES, OPEN_CLIENT, NO_MEMORY (it makes a client meanwhile) and NOT_ENDED. */
uint32_t likes_shared_close(likes_shared *shared, uint64_t *counts, size_t counts_len);

/* Gives back memory, and leaves the handle empty. What clients have of the service stays until they are closed. */
void likes_shared_free(likes_shared *shared);

uint32_t likes_client_like(likes_client *client, uint32_t seat, uint32_t user, uint32_t page);
uint32_t likes_client_look(likes_client *client, uint32_t seat, uint32_t user, uint32_t page, uint64_t tag,
                           likes_answer *answer);
uint32_t likes_client_glance(likes_client *client, uint32_t seat, uint32_t user, uint32_t page, likes_answer *answer);
uint32_t likes_client_last(likes_client *client, uint32_t seat, uint32_t user, uint32_t *page);
uint32_t likes_client_lasts(likes_client *client, uint32_t seat, uint32_t from, uint32_t *pages, size_t pages_len);

/* Takes the next found look: LIKES_OK, or LIKES_NONE, and nothing is written. */
uint32_t likes_client_take_found(likes_client *client, uint32_t seat, likes_found *found);

uint32_t likes_client_turn(likes_client *client, uint32_t seat);
uint32_t likes_client_retire(likes_client *client, uint32_t seat);
uint32_t likes_client_come_back(likes_client *client, uint32_t seat);

/* Runs requests one by one, as likes_seat_run does, and no other thread calls the seat meanwhile. It does none if the
 * first answer is LIKES_UNKNOWN_SEAT or LIKES_BUSY. */
size_t likes_client_run(likes_client *client, uint32_t seat, const likes_request *requests, size_t requests_len,
                        likes_answer *answers, size_t answers_len);

/* A like of a row. */
typedef struct likes_pair {
    uint32_t user;
    uint32_t page;
} likes_pair;

/* Adds likes of the seat's users in their order, up to the first that isn't counted, with one look at the phase word
 * for all: LIKES_LIKED, and all are counted; or what the first that isn't is told. counted, which may be NULL, is how
 * many were. It answers BETWEEN and GONE of a row of no likes, too. */
uint32_t likes_client_like_row(likes_client *client, uint32_t seat, const likes_pair *likes, size_t likes_len,
                               size_t *counted);

/* Locks a seat for this client, until it is unlocked or the client is closed: LIKES_OK. Meanwhile other clients are
 * told LIKES_BUSY there. This one never is, and its calls there take nothing. A seat that it has already stays so. */
uint32_t likes_client_lock(likes_client *client, uint32_t seat);

/* Unlocks a seat: LIKES_OK, also if this client doesn't have it. */
uint32_t likes_client_unlock(likes_client *client, uint32_t seat);

/* Tells the phase of a seat, as likes_seat_phase does: LIKES_OK. */
uint32_t likes_client_phase(likes_client *client, uint32_t seat, uint64_t *phase);

uint32_t likes_client_drive(likes_client *client, uint32_t end);
uint32_t likes_client_snapshot(likes_client *client, uint32_t from, uint64_t *counts, size_t counts_len);
uint32_t likes_client_last_counts(likes_client *client, uint32_t from, uint64_t *counts, size_t counts_len);
uint32_t likes_client_propose(likes_client *client, const uint32_t *pages, size_t pages_len);

/* Writes split pages, as likes_driver_split_pages does: LIKES_OK. written, which may be NULL, is how many were. */
uint32_t likes_client_split_pages(likes_client *client, uint32_t *pages, size_t pages_len, size_t *written);

/* The text of a status, for messages. It knows those of likes_service.h too. */
const char *likes_status_text(uint32_t status);

/* The sizes and places that are part of the ABI, and the order of bytes: the library reads a request's op and its
 * reserved field as one number, of which op is the lower half. */
#ifdef __cplusplus
#define LIKES_PIN(holds) static_assert(holds, "a size, a place or the order of bytes is not that of the library")
#else
#define LIKES_PIN(holds) _Static_assert(holds, "a size, a place or the order of bytes is not that of the library")
#endif
LIKES_PIN(__BYTE_ORDER__ == __ORDER_LITTLE_ENDIAN__);
LIKES_PIN(sizeof(likes_driver) == 16 && sizeof(likes_seat) == 8 && sizeof(likes_phase) == 8);
LIKES_PIN(sizeof(likes_shared) == 16 && sizeof(likes_client) == 8);
LIKES_PIN(sizeof(likes_pair) == 8 && offsetof(likes_pair, user) == 0 && offsetof(likes_pair, page) == 4);
LIKES_PIN(sizeof(likes_options) == 112 && offsetof(likes_options, counts) == 0 && offsetof(likes_options, pages) == 8);
LIKES_PIN(offsetof(likes_options, marks) == 16 && offsetof(likes_options, marks_len) == 24);
LIKES_PIN(offsetof(likes_options, lasts) == 32 && offsetof(likes_options, lasts_len) == 40);
LIKES_PIN(offsetof(likes_options, users) == 48 && offsetof(likes_options, seats) == 52);
LIKES_PIN(offsetof(likes_options, room) == 56 && offsetof(likes_options, hot) == 60);
LIKES_PIN(offsetof(likes_options, period_us) == 64 && offsetof(likes_options, reserved) == 68);
LIKES_PIN(offsetof(likes_options, reserved_too) == 72);
LIKES_PIN(sizeof(likes_request) == 24 && offsetof(likes_request, tag) == 0 && offsetof(likes_request, user) == 8);
LIKES_PIN(offsetof(likes_request, page) == 12 && offsetof(likes_request, op) == 16);
LIKES_PIN(offsetof(likes_request, reserved) == 20);
LIKES_PIN(sizeof(likes_answer) == 16 && offsetof(likes_answer, count) == 0 && offsetof(likes_answer, last) == 8);
LIKES_PIN(offsetof(likes_answer, status) == 12);
LIKES_PIN(sizeof(likes_found) == 48 && offsetof(likes_found, tag) == 0 && offsetof(likes_found, count) == 8);
LIKES_PIN(offsetof(likes_found, asked) == 16 && offsetof(likes_found, ran) == 24 && offsetof(likes_found, user) == 32);
LIKES_PIN(offsetof(likes_found, page) == 36 && offsetof(likes_found, last) == 40);
LIKES_PIN(offsetof(likes_found, reserved) == 44);
#undef LIKES_PIN

#ifdef __cplusplus
}
#endif

#endif
