/* What a service tells of itself, and the pages that are proposed to it. */
#include "service.h"

uint32_t likes_service_fault(const likes_service *service) {
    if (service == NULL)
        return LIKES_NOT_STARTED;
    return service->is_open ? LIKES_OK : LIKES_STOPPED;
}

uint32_t likes_service_seats(const likes_service *service) {
    return likes_service_fault(service) == LIKES_OK ? service->seats : 0;
}

size_t likes_service_pages(const likes_service *service) {
    return likes_service_fault(service) == LIKES_OK ? service->pages : 0;
}

uint32_t likes_service_users(const likes_service *service) {
    return likes_service_fault(service) == LIKES_OK ? service->users : 0;
}

uint64_t likes_service_phase(likes_service *service) {
    return likes_service_fault(service) == LIKES_OK ? service->released : 0;
}

uint32_t likes_service_propose(likes_service *service, const uint32_t *pages, size_t pages_len) {
    inner_member *member;
    uint32_t fault = inner_enter(service, likes_is_missing(pages, pages_len), &member);
    if (fault != LIKES_OK)
        return fault;
    pthread_mutex_lock(&service->turning);
    uint32_t status = likes_client_propose(&member->client, pages, pages_len);
    inner_stir(member);
    return status;
}

size_t likes_service_split_pages(likes_service *service, uint32_t *pages, size_t pages_len) {
    inner_member *member;
    size_t written = 0;
    if (inner_enter(service, likes_is_missing(pages, pages_len), &member) != LIKES_OK)
        return 0;
    pthread_mutex_lock(&service->turning);
    likes_client_split_pages(&member->client, pages, pages_len, &written);
    pthread_mutex_unlock(&service->turning);
    inner_turns(member);
    return written;
}
