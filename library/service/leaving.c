/* Seats that leave a service, and come back. */
#include "service.h"

/* Has a seat leave, or come back. Whoever does the phase work of a seat has it locked, as this thread has here. */
static bool change(inner_member *member, inner_seat *seat, bool is_leaving) {
    inner_lock_until(member, seat, INNER_NEVER);
    uint32_t status = is_leaving ? likes_client_retire(&member->client, seat->number)
                                 : likes_client_come_back(&member->client, seat->number);
    seat->is_leaving = is_leaving && status != LIKES_GONE;
    inner_unlock(member, seat);
    return status == (is_leaving ? LIKES_GONE : LIKES_RUNS);
}

/* Tries again in each phase, which ends at once. A seat may also fail to come back since others change the phase, which
 * then goes on, so it tries again after a while too. */
static uint32_t change_for_sure(likes_service *service, uint32_t number, bool is_leaving) {
    inner_member *member;
    uint32_t fault = likes_service_seat_fault(service, number);
    if (fault == LIKES_OK)
        fault = inner_enter(service, false, &member);
    if (fault != LIKES_OK)
        return fault;
    uint64_t phase = service->released;
    while (!change(member, &service->seat[number], is_leaving)) {
        pthread_mutex_lock(&service->turning);
        inner_stir(member);
        inner_await_phase(member, phase, inner_clock() + INNER_CHOICE_TIME);
        phase = service->released;
    }
    return LIKES_OK;
}

uint32_t likes_service_retire_seat(likes_service *service, uint32_t number) {
    return change_for_sure(service, number, true);
}

uint32_t likes_service_bring_back_seat(likes_service *service, uint32_t number) {
    uint32_t fault = likes_service_seat_fault(service, number);
    if (fault == LIKES_OK && service->is_stopping)
        return LIKES_GONE;
    return change_for_sure(service, number, false);
}
