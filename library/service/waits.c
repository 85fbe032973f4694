/* Calls that wait: for a seat, and for a phase. */
#include "service.h"

#include <sched.h>

/* How often a thread tries a seat before it sleeps: for a microsecond or two, which is longer than a call has the seat,
 * and shorter than to sleep and be woken. */
#define TRIES 8u

/* In how many phases a thread's call comes too late, before the driver waits for the thread. */
#define MISSES 8u

bool inner_await_phase(inner_member *member, uint64_t phase, uint64_t until) {
    likes_service *service = member->service;
    inner_turns(member);
    while (service->released == phase && !inner_is_over(until))
        inner_futex_wait((_Atomic uint32_t *)&service->released, (uint32_t)phase, until);
    return service->released != phase;
}

/* Waits for a phase. At first it tries again at once, so there is a phase that was released before the call. Then it
 * waits without sleep for a while, and makes turns, since the call may have been the last that its phase waited for. A
 * thread that has the seat locked unlocks it before it sleeps, and others can have it. Whether there is time for another
 * try. */
static bool wait_for_phase(inner_member *member, inner_seat *seat, uint64_t until) {
    likes_service *service = member->service;
    bool is_released = true;
    if (member->spins_until == 0) {
        member->spins_until = inner_clock() + INNER_SPIN_TIME;
    } else {
        while (service->released == member->phase && !inner_is_over(member->spins_until) && !inner_is_over(until)) {
            inner_turns(member);
            sched_yield();
        }
        if (service->released == member->phase) {
            if (inner_has(member, seat))
                inner_unlock(member, seat);
            is_released = inner_await_phase(member, member->phase, until);
        }
    }
    member->phase = service->released;
    return is_released;
}

/* Notes in how many phases a call came too late. Once that were several, no split phase ends before it is made. */
static void note_miss(inner_member *member, bool has_missed) {
    likes_service *service = member->service;
    if (has_missed && member->misses + 1 == MISSES)
        service->starving++;
    if (!has_missed && member->misses >= MISSES && --service->starving == 0)
        inner_turns(member);
    member->misses = has_missed ? member->misses + 1 : 0;
}

/* The seat is busy: tries at once, then says that it sleeps and tries, then sleeps. Who gives the seat back wakes one
 * thread. That one says that it sleeps before its next try, so the next one is woken too. No phase waits for a thread
 * that sleeps so: who has the seat may wait for the next phase. Whether there is time for another try. */
static bool wait_for_seat(inner_member *member, inner_seat *seat, uint64_t until) {
    if (member->tries < TRIES) {
        for (uint32_t pauses = member->tries++; pauses > 0; pauses--)
            inner_pause();
        return true;
    }
    if (member->tries++ == TRIES) {
        seat->waiting++;
    } else if (inner_is_over(until)) {
        return false;
    } else {
        note_miss(member, false);
        inner_futex_wait(&seat->asleep, 1, until);
    }
    seat->asleep = 1;
    return true;
}

/* The thread doesn't wait for the seat any more. */
static void leave_seat(inner_member *member, inner_seat *seat) {
    if (member->tries > TRIES)
        seat->waiting--;
    member->tries = 0;
}

INNER_SELDOM uint32_t inner_wait_on(inner_member *member, inner_seat *seat, uint64_t until, uint32_t status) {
    bool is_early = status == LIKES_BETWEEN || status == LIKES_NO_ROOM, has_time = true;
    if (status != LIKES_BUSY) {
        leave_seat(member, seat);
        note_miss(member, status == LIKES_BETWEEN);
    }
    if (is_early)
        has_time = wait_for_phase(member, seat, until);
    else if (status == LIKES_BUSY)
        has_time = wait_for_seat(member, seat, until);
    member->is_waiting = has_time && (is_early || status == LIKES_BUSY);
    if (member->is_waiting)
        return INNER_AGAIN;
    leave_seat(member, seat);
    note_miss(member, false);
    member->spins_until = 0;
    return has_time ? status : (uint32_t)LIKES_LATE;
}

bool inner_lock_until(inner_member *member, inner_seat *seat, uint64_t until) {
    uint32_t status;
    do
        status = inner_told(member, seat, until, inner_lock(member, seat));
    while (status == INNER_AGAIN);
    return status == LIKES_OK;
}
