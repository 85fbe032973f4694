/* Members: a thread's clients, one for each service that it calls. When the thread ends, the next one that calls the
 * service has its member. */
#include "service.h"

#include <stdlib.h>

_Thread_local inner_thread inner_mine;

static pthread_mutex_t lock = PTHREAD_MUTEX_INITIALIZER;
static pthread_key_t key;
static bool has_key;
static inner_member *members;
static uint64_t numbers; /* of threads and services */

/* When a thread ends. A member that has locked a seat is nobody's from now on. A destructor of the host's that comes later may
 * call the service again: then the thread looks for a member anew, and this is called again. */
static void end_thread(void *at) {
    inner_thread *mine = (inner_thread *)at;
    pthread_mutex_lock(&lock);
    for (inner_member *member = members; member != NULL; member = member->next)
        if (member->thread == mine->number && member->locked == NULL)
            member->thread = 0;
    pthread_mutex_unlock(&lock);
    memset(mine->members, 0, sizeof mine->members);
}

/* Has end_thread called when this thread ends: whether it will be. The program may have all keys for a while. With the
 * lock. */
static bool note_end(void) {
    has_key = has_key || pthread_key_create(&key, end_thread) == 0;
    return has_key && pthread_setspecific(key, &inner_mine) == 0;
}

/* A member with a new client. With the lock: so no other thread opens or closes a client. */
static inner_member *made(likes_service *service) {
    inner_member *member = (inner_member *)aligned_alloc(_Alignof(inner_member), sizeof *member);
    if (member == NULL)
        return NULL;
    *member = (inner_member){.service = service, .next = members};
    if (likes_client_open(&service->shared, &member->client) != LIKES_OK) {
        free(member);
        return NULL;
    }
    return members = member;
}

/* A thread's member, or by 0 one that no thread has. With the lock. */
static inner_member *member_of(likes_service *service, uint64_t thread) {
    inner_member *member = members;
    while (member != NULL && (member->service != service || member->thread != thread))
        member = member->next;
    return member;
}

/* Gives the thread a member. With the lock. */
static inner_member *take(likes_service *service) {
    if (inner_mine.number == 0)
        inner_mine.number = ++numbers;
    inner_member *member = member_of(service, inner_mine.number);
    if (member == NULL)
        member = member_of(service, 0);
    if (member == NULL)
        member = made(service);
    if (member != NULL) {
        member->thread = inner_mine.number;
        inner_mine.members[service->id % 8].id = service->id;
        inner_mine.members[service->id % 8].member = member;
    }
    return member;
}

/* The thread takes a member once it is sure to give it back when it ends. */
INNER_SELDOM inner_member *inner_member_find(likes_service *service) {
    int error = errno;
    pthread_mutex_lock(&lock);
    inner_member *member = note_end() ? take(service) : NULL;
    pthread_mutex_unlock(&lock);
    errno = error;
    return member;
}

bool inner_members_open(likes_service *service) {
    pthread_mutex_lock(&lock);
    service->id = ++numbers;
    service->own = made(service);
    if (service->own != NULL)
        service->own->thread = service->id;
    pthread_mutex_unlock(&lock);
    return service->own != NULL;
}

static void free_member(inner_member *member) {
    for (inner_wait *next, *wait = member->waits; wait != NULL; wait = next) {
        next = wait->next;
        free(wait);
    }
    likes_client_close(&member->client);
    free(member);
}

void inner_members_close(const likes_service *service) {
    inner_member **at = &members;
    pthread_mutex_lock(&lock);
    while (*at != NULL) {
        inner_member *member = *at;
        if (member->service != service) {
            at = &member->next;
            continue;
        }
        *at = member->next;
        free_member(member);
    }
    pthread_mutex_unlock(&lock);
}

/* Adds what a member did. */
static void add(const inner_member *member, likes_statistics *to) {
    to->likes += member->likes;
    to->looks += member->looks;
    to->waits += member->waited;
    to->wait_time += member->wait_time;
    to->late += member->late;
    to->longest_wait = member->longest_wait > to->longest_wait ? member->longest_wait : to->longest_wait;
}

uint32_t likes_service_statistics(likes_service *service, likes_statistics *statistics) {
    uint32_t fault = likes_service_fault(service);
    if (statistics == NULL)
        return LIKES_NULL;
    *statistics = fault == LIKES_STOPPED ? service->ended : (likes_statistics){0};
    if (fault != LIKES_OK)
        return fault == LIKES_STOPPED ? (uint32_t)LIKES_OK : fault;
    pthread_mutex_lock(&lock);
    for (const inner_member *member = members; member != NULL; member = member->next)
        if (member->service == service)
            add(member, statistics);
    pthread_mutex_unlock(&lock);
    statistics->phases = service->released;
    return LIKES_OK;
}
