/* A service that threads share. What touches a seat, the driver or a like is a call of a proved client, which is told
 * at once that another thread has the seat, or that the seat is between two phases. The code here only waits.
 *
 * There is one rule for what is left to others: set a flag, then try; who has what was tried gives it back, then looks
 * at the flag. So either the try succeeds, or the flag is seen.
 *
 *   - A seat: the flags are its bit of `work`, and its `asleep`. Each call of a client gives the seat back by a
 *     sequentially consistent store, and they are loaded after it (seat.c).
 *   - The driver: the flag is `wished`, and the right to make turns is a mutex (turns.c).
 *   - The driver's thread sleeps while a number, `call`, is the same. Only this thread rests (thread.c).
 *   - Who waits for a phase sleeps while its number, `released`, is the same as before its call (waits.c).
 *
 * Each thread has a client of each service that it calls: its member (member.c). */
#ifndef INNER_SERVICE_H
#define INNER_SERVICE_H

#include <pthread.h>
#include <stdatomic.h>
#include <string.h>

#include "likes_service.h"

#include "../missing.h"
#include "../proved.h"
#include "sleep.h"

/* Of a function that is called seldom, by one that is called often: it stays apart. */
#define INNER_SELDOM __attribute__((noinline, cold))

/* How long a call tries again before it sleeps, and the longest time between two looks for hot pages, in nanoseconds. */
#define INNER_SPIN_TIME UINT64_C(50000)
#define INNER_CHOICE_TIME UINT64_C(1000000)

/* What each call uses lies in two lines of a cache, apart from what each call at another seat uses. */
#define INNER_APART _Alignas(128)

/* A service's `wished`, or 0: a turn is wanted; the thread that makes turns sleeps until one is. */
enum { INNER_WISHED = 1, INNER_WATCHED = 2 };

/* The most likes of a writer's row, and requests of a part of a host's. */
enum { INNER_ROW = 64 };

/* Tags of a host's looks are below these, which are the service's own. */
#define INNER_TAGS (UINT64_C(1) << 63)

typedef struct inner_seat {
    INNER_APART _Atomic uint32_t asleep; /* 1: a thread sleeps until the seat is free. A futex */
    uint32_t number;
    uint64_t bit; /* 2^number, in numbers that have a bit for each seat */
    _Atomic uint32_t waiting; /* how many threads wait until it is free */
    _Atomic uint32_t calls;   /* odd while a thread has locked it and is in no call; goes up with each such call */
    _Atomic bool is_leaving;  /* who does its phase work retires it, if it can */
    likes_service *service;
    uintptr_t lasts;   /* where the last likes of its users lie, four bytes for each */
    likes_seat handle; /* of the thread that has locked it: its address, and 1 */
    /* Of who has the seat locked: how many looks of the host's were asked and not taken, and a ring of found ones. */
    uint32_t hosts, first, length;
    likes_found *found;
    pthread_mutex_t held; /* by that thread, also while others may call the seat */
} inner_seat;

/* A look of the service that waits. Its tag is its address, with the bit of such tags. */
typedef struct inner_wait {
    struct inner_wait *next;
    uint64_t count;
    uint32_t last;
    _Atomic uint32_t state; /* a futex */
} inner_wait;

enum { INNER_UNUSED, INNER_ASKED, INNER_FOUND, INNER_THROWN };

/* A thread's part in a service. */
typedef struct inner_member {
    INNER_APART likes_client client;
    likes_service *service;
    inner_seat *locked; /* the seat that the thread has locked by likes_service_lock */
    uint64_t has;       /* the seats that the client has locked. A bit for each */
    inner_wait *waits;
    /* Of a call that waits (waits.c): how often the seat was busy, and the call too late for a phase, one after the other;
     * a phase that was released before the call; until when it waits for the next one without sleep. */
    bool is_waiting;
    uint32_t tries, misses;
    uint64_t phase, spins_until;
    /* What the thread did, as in likes_statistics. */
    _Atomic uint64_t likes, looks, waited, wait_time, longest_wait, late;
    uint64_t thread;           /* whose it is: a number, or 0. Under the lock of member.c, as */
    struct inner_member *next; /* of all members */
} inner_member;

struct likes_service {
    INNER_APART bool is_open;
    uint32_t seats, users, room;
    uint64_t id;      /* no other service has the same */
    uint64_t inverse; /* of `seats`, for inner_remainder */
    uint64_t all;     /* the bits of all seats */
    inner_seat *seat; /* seat[n] is the one with number n */
    size_t pages;
    uint64_t period;                    /* in nanoseconds */
    INNER_APART _Atomic uint64_t pulse; /* for writers: goes up once in a period, and when the service begins to rest */
    _Atomic bool is_used;               /* a call was made since the last round */
    _Atomic uint64_t released;          /* the phase that was last released; a futex, by its lower half */
    _Atomic uint64_t work;     /* the seats whose phase work is to be done. A bit for each, as in `all` */
    _Atomic uint64_t due;      /* when the phase may end */
    _Atomic uint64_t wakes_at; /* until when the driver's thread sleeps. 0: it is awake, or rests */
    _Atomic uint32_t starving; /* how many threads have missed phases, and wait for the next one to make a call */
    _Atomic uint32_t call;     /* goes up when the driver's thread is called; a futex */
    _Atomic uint32_t writers;  /* how many are open */
    _Atomic bool is_resting;   /* the driver's thread sleeps until it is called */
    _Atomic bool is_stopping, is_ending; /* the end of the present phase was announced */
    INNER_APART _Atomic uint32_t wished; /* a futex */
    pthread_mutex_t turning;
    /* Of the thread that has `turning`: whether the last turn left nothing to do until a call comes, and how many rounds
     * had no call, one after the other. */
    bool may_rest;
    uint32_t quiet;
    likes_shared shared;
    inner_member *own;      /* the driver's thread's */
    likes_statistics ended; /* once it is stopped */
    pthread_t thread;
    bool has_thread;
};

/* The remainder of a division by a divisor whose inverse is UINT64_MAX / divisor + 1, without the division
 * (D. Lemire, O. Kaser, N. Kurz, "Faster Remainder by Direct Computation", 2019). */
static inline size_t inner_remainder(uint32_t number, uint64_t inverse, uint64_t divisor) {
    __extension__ typedef unsigned __int128 wide;
    return (size_t)(((wide)(inverse * number) * divisor) >> 64);
}

/* Has the processor fetch the line of a cache that has a user's last like, number u / seats of them. (A processor that
 * can't does nothing, nor does any where there is no such user.) */
static inline void inner_fetch(uintptr_t lasts, uint64_t inverse, uint32_t user) {
    __extension__ typedef unsigned __int128 wide;
    uint64_t number = inverse == 0 ? user : (uint64_t)(((wide)inverse * user) >> 64);
    const char *at = (const char *)(lasts + 4 * number);
#if defined(__x86_64__)
    __asm__ volatile("prefetchw %0" ::"m"(*at));
#else
    __builtin_prefetch(at, 1);
#endif
}

/* Adds to a number that one thread writes, and others read. */
static inline void inner_add(_Atomic uint64_t *at, uint64_t by) {
    atomic_store_explicit(at, atomic_load_explicit(at, memory_order_relaxed) + by, memory_order_relaxed);
}

/* Writes an answer that shows nothing, where there is one, and gives its status. */
static inline uint32_t inner_refuse(likes_answer *answer, uint32_t status) {
    if (answer != NULL)
        *answer = (likes_answer){.status = status};
    return status;
}

/* Notes a call, before it is made: a driver's thread that begins to rest sees it, or the call sees that it rests. */
static inline void inner_note_use(likes_service *service) {
    if (!service->is_used)
        service->is_used = true;
}

/* member.c: how many seats a thread has locked, and those of its members that it looked for last. It is reached without a
 * call, also in a shared library. */
typedef struct inner_thread {
    uint64_t number; /* no other has the same. 0: it has called no service yet */
    uint32_t locked;
    struct {
        uint64_t id; /* of a service, or 0 */
        inner_member *member;
    } members[8];
} inner_thread;

extern _Thread_local inner_thread inner_mine __attribute__((tls_model("initial-exec")));

/* The thread's member of a service, which is made if need be. NULL: no memory. */
inner_member *inner_member_find(likes_service *service);

static inline inner_member *inner_member_of(likes_service *service) {
    bool is_first = inner_mine.members[service->id % 8].id == service->id;
    return is_first ? inner_mine.members[service->id % 8].member : inner_member_find(service);
}

/* Whether the thread has locked a seat of a service. */
static inline bool inner_has_locked(likes_service *service) {
    const inner_member *member = inner_mine.locked > 0 ? inner_member_of(service) : NULL;
    return member != NULL && member->locked != NULL;
}

/* Opens a member for the driver's thread. Closes all, which no thread calls any more. */
bool inner_members_open(likes_service *service);
void inner_members_close(const likes_service *service);

/* What is wrong with a call of a thread that may have locked no seat, or LIKES_OK, and then its member. */
static inline uint32_t inner_enter(likes_service *service, bool has_null, inner_member **member) {
    if (has_null || service == NULL || !service->is_open)
        return has_null ? LIKES_NULL : service == NULL ? LIKES_NOT_STARTED : LIKES_STOPPED;
    *member = inner_member_of(service);
    if (*member == NULL)
        return LIKES_NO_MEMORY;
    return (*member)->locked != NULL ? LIKES_HOLDS_SEAT : LIKES_OK;
}

/* seat.c: does what others left at a seat, and wakes the driver's thread where it rests. */
void inner_attend(inner_member *member, inner_seat *seat);

/* After each call of a client at a seat. */
static inline void inner_after(inner_member *member, inner_seat *seat) {
    const likes_service *service = member->service;
    bool has_work = (service->work & seat->bit) != 0, is_resting = service->is_resting;
    if (__builtin_expect(has_work || seat->asleep != 0 || is_resting, false))
        inner_attend(member, seat);
}

/* Does the phase work that is to be done, or leaves it to who has the seat. Whether it did any. */
bool inner_work(inner_member *member);

/* Whether this client has a seat locked. Locks it, if it is free: LIKES_OK or LIKES_BUSY. Unlocks it, and does what was
 * left. */
static inline bool inner_has(const inner_member *member, const inner_seat *seat) {
    return (member->has & seat->bit) != 0;
}
uint32_t inner_lock(inner_member *member, inner_seat *seat);
void inner_unlock(inner_member *member, inner_seat *seat);

/* Takes the next found look of the host's, at a seat that the thread has locked. */
bool inner_take_found(inner_member *member, inner_seat *seat, likes_found *found);

/* The status of a call that has to be made again. */
#define INNER_AGAIN UINT32_MAX

/* waits.c: waits, where a call of a client wasn't answered, since its seat is busy or between two phases, or looks fill
 * it: INNER_AGAIN, or LIKES_LATE, if that is so at a time. Else it gives the status. */
uint32_t inner_wait_on(inner_member *member, inner_seat *seat, uint64_t until, uint32_t status);

/* The status after a call of a client at a seat, or INNER_AGAIN. */
static inline uint32_t inner_told(inner_member *member, inner_seat *seat, uint64_t until, uint32_t status) {
    bool is_busy = status == LIKES_BUSY, is_early = status == LIKES_BETWEEN || status == LIKES_NO_ROOM;
    if (!is_busy)
        inner_after(member, seat);
    if (__builtin_expect(is_busy || is_early || member->is_waiting, false))
        return inner_wait_on(member, seat, until, status);
    return status;
}

/* Begins a call of a user, by a thread that may have locked none: LIKES_OK, and its member and the user's seat; or what
 * is wrong with it. */
static inline uint32_t inner_begin(likes_service *service, uint32_t user, bool has_null, inner_member **member,
                                   inner_seat **seat) {
    uint32_t fault = inner_enter(service, has_null, member);
    if (fault != LIKES_OK)
        return fault;
    inner_note_use(service);
    *seat = &service->seat[inner_remainder(user, service->inverse, service->seats)];
    return LIKES_OK;
}

/* Locks a seat for this client, until a time. Whether it could. */
bool inner_lock_until(inner_member *member, inner_seat *seat, uint64_t until);

/* Waits until a phase after this one is released, or until a time: whether one is. */
bool inner_await_phase(inner_member *member, uint64_t phase, uint64_t until);

/* turns.c: makes turns of the driver, and the phase work that comes of them, until nothing is left that can be done now,
 * and gives the first answer. Where another thread makes turns, it leaves a wish: LIKES_NOT_ALL_IN. */
uint32_t inner_turns(inner_member *member);

/* After looks of the host's that may wait: makes turns where they pass a multiple of 16, or take half of the room, which
 * ends the phase if they all wait. Other threads' looks at the seat are not among them: those make turns of their own. */
static inline void inner_looks_wait(inner_member *member, const inner_seat *seat, uint32_t before) {
    uint32_t now = seat->hosts;
    if (now > before && (now / 16 > before / 16 || 2 * now >= seat->service->room))
        inner_turns(member);
}

/* With `turning` locked: makes one turn; sleeps until there is a wish, or until a time; makes a turn due at once, and
 * lets the next two rounds count as some with calls. The last wakes threads that wait for a phase, unlocks it, makes
 * turns, and calls the driver's thread. */
uint32_t inner_turn(inner_member *member, uint32_t end);
void inner_await_wish(likes_service *service, uint64_t until);
void inner_stir(inner_member *member);

/* thread.c: the driver's thread, and how it is woken. */
void *inner_driver(void *service);
void inner_call(likes_service *service);

/* locked.c: what is wrong with a call at a seat that the thread has to have locked, or LIKES_OK, and then its member. */
uint32_t inner_locked_fault(likes_service *service, uint32_t number, inner_member **member);

/* Makes a look at a seat that the thread has locked: an answer of likes_seat_look, or LIKES_WRONG_TAG. */
uint32_t inner_look(inner_member *member, inner_seat *seat, const likes_request *request, likes_answer *answer);

/* Runs requests at a seat that the thread has locked, up to one that has no room, through changes of phases if it waits. It
 * gives the number of those done. */
size_t inner_run(inner_member *member, inner_seat *seat, const likes_request *requests, size_t length,
                 likes_answer *answers, bool waits);

/* Notes that a thread calls a seat that it has locked. */
static inline void inner_note_call(inner_seat *seat, uint32_t steps) {
    atomic_store_explicit(&seat->calls, seat->calls + steps, memory_order_relaxed);
}

#endif
