/* Single calls. */
#include "service.h"

#include <stdlib.h>

/* The line of the user's last like is fetched while the call takes the seat's lock: to give that back waits for it. */
uint32_t likes_service_like(likes_service *service, uint32_t user, uint32_t page) {
    inner_member *member;
    inner_seat *seat;
    uint32_t status = inner_begin(service, user, false, &member, &seat);
    if (status != LIKES_OK)
        return status;
    inner_fetch(seat->lasts, service->inverse, user);
    do {
        status = likes_client_like(&member->client, seat->number, user, page);
        status = inner_told(member, seat, INNER_NEVER, status);
    } while (status == INNER_AGAIN);
    inner_add(&member->likes, status == LIKES_LIKED);
    return status;
}

uint32_t likes_service_glance(likes_service *service, uint32_t user, uint32_t page, likes_answer *answer) {
    inner_member *member;
    inner_seat *seat;
    uint32_t status = inner_begin(service, user, answer == NULL, &member, &seat);
    if (status != LIKES_OK)
        return inner_refuse(answer, status);
    do {
        status = likes_client_glance(&member->client, seat->number, user, page, answer);
        status = inner_told(member, seat, INNER_NEVER, status);
    } while (status == INNER_AGAIN);
    return status;
}

uint32_t likes_service_last(likes_service *service, uint32_t user, uint32_t *page) {
    inner_member *member;
    inner_seat *seat;
    uint32_t status = inner_begin(service, user, page == NULL, &member, &seat);
    if (status != LIKES_OK)
        return status;
    do {
        status = likes_client_last(&member->client, seat->number, user, page);
        status = inner_told(member, seat, INNER_NEVER, status);
    } while (status == INNER_AGAIN);
    return status;
}

/* For a look that waits. Mostly it is the thread's only one: that of a look which was late is in use until it is found.
 */
static inner_wait *wait_of(inner_member *member) {
    inner_wait *wait = member->waits;
    int error = errno;
    while (wait != NULL && wait->state != INNER_UNUSED)
        wait = wait->next;
    if (wait == NULL && (wait = (inner_wait *)malloc(sizeof *wait)) != NULL) {
        *wait = (inner_wait){.next = member->waits};
        member->waits = wait;
    }
    errno = error;
    return wait;
}

/* Waits until a look is found, or until it is too late, and then throws its answer away. */
static uint32_t await_found(inner_member *member, inner_wait *wait, uint64_t until, likes_answer *answer) {
    uint64_t began = inner_clock(), took;
    inner_turns(member);
    while (wait->state == INNER_ASKED && !inner_is_over(until))
        inner_futex_wait(&wait->state, INNER_ASKED, until);
    if (atomic_exchange(&wait->state, INNER_THROWN) == INNER_ASKED)
        return LIKES_LATE;
    *answer = (likes_answer){wait->count, wait->last, LIKES_SEEN};
    wait->state = INNER_UNUSED;
    took = inner_clock() - began;
    inner_add(&member->waited, 1);
    inner_add(&member->wait_time, took);
    inner_add(&member->longest_wait, took > member->longest_wait ? took - member->longest_wait : 0);
    return LIKES_SEEN;
}

static uint32_t look_until(likes_service *service, uint32_t user, uint32_t page, uint64_t until, likes_answer *answer) {
    inner_member *member;
    inner_seat *seat;
    uint32_t status = inner_begin(service, user, answer == NULL, &member, &seat);
    inner_wait *wait = status == LIKES_OK ? wait_of(member) : NULL;
    if (wait == NULL)
        return inner_refuse(answer, status != LIKES_OK ? status : (uint32_t)LIKES_NO_MEMORY);
    uint64_t tag = INNER_TAGS | (uint64_t)(uintptr_t)wait;
    wait->state = INNER_ASKED;
    do {
        status = likes_client_look(&member->client, seat->number, user, page, tag, answer);
        status = inner_told(member, seat, until, status);
    } while (status == INNER_AGAIN);
    if (status == LIKES_WAITS)
        status = await_found(member, wait, until, answer);
    else
        wait->state = INNER_UNUSED;
    inner_add(&member->looks, status == LIKES_SEEN);
    inner_add(&member->late, status == LIKES_LATE);
    return status == LIKES_LATE ? inner_refuse(answer, status) : status;
}

uint32_t likes_service_look(likes_service *service, uint32_t user, uint32_t page, likes_answer *answer) {
    return look_until(service, user, page, INNER_NEVER, answer);
}

uint32_t likes_service_look_within(likes_service *service, uint32_t user, uint32_t page, uint32_t microseconds,
                                   likes_answer *answer) {
    return look_until(service, user, page, inner_clock() + UINT64_C(1000) * microseconds, answer);
}
