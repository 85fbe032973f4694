/* Seats that a thread has locked, for rows of requests. */
#include "service.h"

#include <sched.h>

/* How long a thread lets others have a seat, before it locks it, in nanoseconds. */
#define WAY UINT64_C(1000000)

uint32_t likes_service_seat_fault(const likes_service *service, uint32_t number) {
    uint32_t fault = likes_service_fault(service);
    if (fault != LIKES_OK || number >= service->seats)
        return fault != LIKES_OK ? fault : (uint32_t)LIKES_UNKNOWN_SEAT;
    return inner_has_locked((likes_service *)service) ? (uint32_t)LIKES_HOLDS_SEAT : fault;
}

uint32_t inner_locked_fault(likes_service *service, uint32_t number, inner_member **member) {
    uint32_t fault = likes_service_seat_fault(service, number);
    if (fault != LIKES_HOLDS_SEAT)
        return fault == LIKES_OK ? (uint32_t)LIKES_NOT_LOCKED : fault;
    *member = inner_member_of(service);
    return (*member)->locked == &service->seat[number] ? LIKES_OK : LIKES_NOT_LOCKED;
}

/* Threads that wait for the seat already have it first, for a while. */
likes_seat *likes_service_lock(likes_service *service, uint32_t number) {
    inner_member *member;
    if (likes_service_seat_fault(service, number) != LIKES_OK || inner_enter(service, false, &member) != LIKES_OK)
        return NULL;
    inner_note_use(service);
    inner_seat *seat = &service->seat[number];
    pthread_mutex_lock(&seat->held);
    uint64_t until = seat->waiting > 0 ? inner_clock() + WAY : 0;
    while (seat->waiting > 0 && !inner_is_over(until))
        sched_yield();
    inner_lock_until(member, seat, INNER_NEVER);
    member->locked = seat;
    inner_mine.locked++;
    inner_note_call(seat, 1);
    return &seat->handle;
}

void likes_service_unlock(likes_service *service, uint32_t number) {
    inner_member *member;
    if (inner_locked_fault(service, number, &member) != LIKES_OK)
        return;
    inner_note_call(member->locked, 1);
    inner_mine.locked--;
    member->locked = NULL;
    inner_unlock(member, &service->seat[number]);
    pthread_mutex_unlock(&service->seat[number].held);
}

/* A look of the host's. No more of them wait, or are found and not taken, than the seat has room for. What isn't split, a
 * glance shows also then. Its caller sees whether those that wait take half of the room (inner_looks_wait). */
uint32_t inner_look(inner_member *member, inner_seat *seat, const likes_request *request, likes_answer *answer) {
    uint32_t user = request->user, page = request->page;
    if (request->tag >= INNER_TAGS)
        return inner_refuse(answer, LIKES_WRONG_TAG);
    uint32_t status = seat->hosts < member->service->room
                          ? likes_client_look(&member->client, seat->number, user, page, request->tag, answer)
                          : likes_client_glance(&member->client, seat->number, user, page, answer);
    seat->hosts += status == LIKES_WAITS;
    return status == LIKES_GLIMPSED ? inner_refuse(answer, LIKES_NO_ROOM) : status;
}

/* The next requests of a row, up to a look that has a wrong tag, or for which the seat may have no room. */
typedef struct part {
    size_t length;
    uint32_t others; /* 0: they are likes alone */
    likes_pair likes[INNER_ROW];
} part;

static void next_part(const inner_seat *seat, const likes_request *requests, size_t length, part *next) {
    const likes_service *service = seat->service;
    size_t i = 0, most = length < INNER_ROW ? length : INNER_ROW;
    uint32_t hosts = seat->hosts, others = 0;
    for (; i < most; i++) {
        const likes_request *it = &requests[i];
        bool is_look = it->op == LIKES_LOOK && it->reserved == 0;
        if (is_look && (it->tag >= INNER_TAGS || hosts++ == service->room))
            break;
        others |= it->op | it->reserved;
        next->likes[i] = (likes_pair){it->user, it->page};
    }
    next->length = i;
    next->others = others;
}

/* Counts likes, up to the first that isn't counted: how many, and a status that says why no more. */
static size_t count_likes(inner_member *member, const part *next, likes_answer *answers, uint32_t *status) {
    const likes_answer liked = {.status = LIKES_LIKED};
    size_t done = 0;
    *status = likes_client_like_row(&member->client, member->locked->number, next->likes, next->length, &done);
    for (size_t i = 0; i < done; i++)
        answers[i] = liked;
    inner_add(&member->likes, done);
    return done;
}

/* Runs a row of requests, or answers a look. The number of those done, and a status that tells if the next one is too
 * early. */
static size_t run_part(inner_member *member, const likes_request *requests, size_t length, likes_answer *answers,
                       uint32_t *status) {
    inner_seat *seat = member->locked;
    part next;
    size_t likes = 0;
    next_part(seat, requests, length, &next);
    if (next.length == 0) {
        *status = inner_look(member, seat, requests, answers);
        return *status != LIKES_BETWEEN && *status != LIKES_NO_ROOM;
    }
    if (next.others == 0 && (likes = count_likes(member, &next, answers, status)) > 0)
        return likes;
    for (size_t i = 0; i < next.length; i++)
        inner_fetch(seat->lasts, member->service->inverse, next.likes[i].user);
    size_t done = likes_client_run(&member->client, seat->number, requests, next.length, answers, next.length);
    for (size_t i = 0; i < done; i++) {
        likes += answers[i].status == LIKES_LIKED;
        seat->hosts += answers[i].status == LIKES_WAITS;
    }
    inner_add(&member->likes, likes);
    *status = done < next.length ? answers[done].status : (uint32_t)LIKES_OK;
    return done;
}

size_t inner_run(inner_member *member, inner_seat *seat, const likes_request *requests, size_t length,
                 likes_answer *answers, bool waits) {
    size_t done = 0, many = 1;
    uint32_t status, hosts = seat->hosts;
    while (done < length && many > 0) {
        do {
            status = inner_has(member, seat) ? (uint32_t)LIKES_OK : inner_lock(member, seat);
            if (status == LIKES_OK) {
                many = run_part(member, requests + done, length - done, answers + done, &status);
                done += many;
            }
            /* Where the host's own looks fill the seat, no phase makes room. */
            if (status == LIKES_NO_ROOM && seat->hosts == member->service->room)
                status = LIKES_GLIMPSED;
        } while (waits && inner_told(member, seat, INNER_NEVER, status) == INNER_AGAIN);
    }
    inner_looks_wait(member, seat, hosts);
    return done;
}

size_t likes_service_run(likes_service *service, uint32_t number, const likes_request *requests, size_t length,
                         likes_answer *answers) {
    inner_member *member;
    uint32_t fault = inner_locked_fault(service, number, &member);
    if ((requests == NULL || answers == NULL) && length > 0)
        fault = LIKES_NULL;
    if (fault != LIKES_OK) {
        inner_refuse(length > 0 ? answers : NULL, fault);
        return 0;
    }
    inner_note_use(service);
    if (length == 0) {
        inner_after(member, member->locked);
        return 0;
    }
    inner_note_call(member->locked, 1);
    size_t done = inner_run(member, member->locked, requests, length, answers, true);
    inner_note_call(member->locked, 1);
    return done;
}

bool likes_service_take_found(likes_service *service, uint32_t number, likes_found *found) {
    inner_member *member;
    return found != NULL && inner_locked_fault(service, number, &member) == LIKES_OK &&
           likes_seat_take_found(&member->locked->handle, found);
}
