/* How a service begins and ends. */
#include "../defaults.h"
#include "service.h"

#include <signal.h>
#include <stdlib.h>

/* Makes a service over what is proved of it, which is closed. NULL: no memory. */
static likes_service *made(const likes_shared *shared, const likes_options *options) {
    uint32_t seats = (uint32_t)shared->seats, room = options->room > 0 ? options->room : LIKES_DEFAULT_ROOM;
    size_t size = sizeof(likes_service) + seats * sizeof(inner_seat);
    likes_service *service = (likes_service *)aligned_alloc(_Alignof(likes_service), size);
    likes_found *found = (likes_found *)calloc((size_t)seats * room, sizeof *found);
    if (service == NULL || found == NULL) {
        free(service);
        free(found);
        return NULL;
    }
    memset(service, 0, size);
    service->shared = *shared;
    service->seat = (inner_seat *)(service + 1);
    service->seats = seats;
    service->room = room;
    service->users = options->users;
    service->pages = options->pages;
    service->inverse = UINT64_MAX / seats + 1;
    service->all = UINT64_MAX >> (LIKES_MAX_SEATS - seats);
    service->period = UINT64_C(1000) * (options->period_us > 0 ? options->period_us : 1000);
    for (uint32_t i = 0; i < seats; i++) {
        inner_seat *seat = &service->seat[i];
        seat->number = i;
        seat->bit = UINT64_C(1) << i;
        seat->service = service;
        seat->handle.at = (void *)((uintptr_t)seat + 1);
        seat->found = found + (size_t)i * room;
        pthread_mutex_init(&seat->held, NULL);
    }
    pthread_mutex_init(&service->turning, NULL);
    return service;
}

/* Closes all clients, and gives back all that a stopped service needs no more. */
static void end(likes_service *service) {
    service->is_open = false;
    inner_members_close(service);
    free(service->seat[0].found);
    for (uint32_t i = 0; i < service->seats; i++)
        pthread_mutex_destroy(&service->seat[i].held);
    pthread_mutex_destroy(&service->turning);
}

/* Starts the driver's thread, which takes none of the host's signals. */
static bool starts(likes_service *service) {
    sigset_t all, old;
    sigfillset(&all);
    pthread_sigmask(SIG_SETMASK, &all, &old);
    service->has_thread = pthread_create(&service->thread, NULL, inner_driver, service) == 0;
    pthread_sigmask(SIG_SETMASK, &old, NULL);
    return service->has_thread;
}

static uint32_t begin(likes_service *service) {
    service->is_open = true;
    if (!inner_members_open(service))
        return LIKES_NO_MEMORY;
    for (uint32_t i = 0; i < service->seats; i++) {
        likes_address lasts = {0};
        likes_proved_client_address(&service->own->client, i, &lasts);
        service->seat[i].lasts = (uintptr_t)lasts.at;
    }
    return starts(service) ? LIKES_OK : LIKES_NO_THREAD;
}

uint32_t likes_service_open(const likes_options *options, likes_service **service) {
    likes_shared shared = {0};
    int error = errno;
    if (options == NULL || service == NULL)
        return LIKES_NULL;
    if (*service != NULL)
        return LIKES_IN_USE;
    if (options->period_us > LIKES_MAX_PERIOD_US)
        return LIKES_WRONG_PERIOD;
    uint32_t status = likes_shared_open(options, &shared);
    if (status != LIKES_OK)
        return status;
    likes_service *opened = made(&shared, options);
    status = opened == NULL ? (uint32_t)LIKES_NO_MEMORY : begin(opened);
    if (status == LIKES_OK) {
        *service = opened;
    } else {
        if (opened != NULL)
            end(opened);
        likes_shared_free(&shared);
        free(opened);
    }
    errno = error;
    return status;
}

/* Has all seats leave, if they can, and makes a turn of the driver. Before it waits for `turning`, it wishes for a turn
 * after the seats' work: who has `turning` may wait for that, to get counts. */
static uint32_t leave(inner_member *member) {
    likes_service *service = member->service;
    for (uint32_t i = 0; i < service->seats; i++)
        service->seat[i].is_leaving = true;
    service->work = service->all;
    inner_turns(member);
    pthread_mutex_lock(&service->turning);
    uint32_t status = inner_turn(member, LIKES_END_IF_IT_SERVES);
    inner_stir(member);
    return status;
}

/* Why a service can't be ended, or LIKES_OK. */
static uint32_t end_fault(const likes_service *service) {
    uint32_t fault = likes_service_seat_fault(service, 0);
    if (fault == LIKES_OK && service->writers > 0)
        return LIKES_OPEN_WRITER;
    return fault;
}

/* Once the driver's thread has ended, its member is this thread's. */
static void retire(likes_service *service) {
    service->is_stopping = true;
    inner_call(service);
    if (service->has_thread)
        pthread_join(service->thread, NULL);
    service->has_thread = false;
    while (leave(service->own) != LIKES_ENDED)
        ;
}

/* This thread has a member then, so that the last likes can be read. */
uint32_t likes_service_retire(likes_service *service) {
    uint32_t fault = end_fault(service);
    if (fault == LIKES_OK && inner_member_of(service) == NULL)
        fault = LIKES_NO_MEMORY;
    if (fault == LIKES_OK)
        retire(service);
    return fault;
}

/* The counts are written before the shared service is closed, which may get no memory. */
uint32_t likes_service_stop(likes_service *service, uint64_t *counts, size_t pages) {
    uint32_t fault = likes_is_missing(counts, pages) ? (uint32_t)LIKES_NULL : end_fault(service);
    if (fault != LIKES_OK)
        return fault;
    if (pages != service->pages)
        return LIKES_WRONG_LENGTH;
    retire(service);
    likes_service_statistics(service, &service->ended);
    likes_client_last_counts(&service->own->client, 0, counts, pages);
    end(service);
    likes_shared_close(&service->shared, counts, pages);
    return LIKES_OK;
}

uint32_t likes_service_close(likes_service *service) {
    uint32_t status = end_fault(service);
    if (status != LIKES_OK && status != LIKES_NOT_STARTED && status != LIKES_STOPPED)
        return status;
    if (status == LIKES_OK) {
        retire(service);
        end(service);
    }
    if (service != NULL)
        likes_shared_free(&service->shared);
    free(service);
    return LIKES_OK;
}
