/* The driver's turns, by one thread at a time: the one that has `turning`. Another thread that wants a turn leaves a
 * wish. The thread takes the wish before its turn, and looks for another one after it has given `turning` back: so the
 * turn after a wish sees all that came before it. */
#include "service.h"

/* After this many rounds without a call, phases stop changing. */
#define QUIET_ROUNDS 2u

/* Wishes for a turn. Whether this thread may make it. */
static bool wish(likes_service *service) {
    if (service->wished != INNER_WISHED && atomic_exchange(&service->wished, INNER_WISHED) == INNER_WATCHED)
        inner_futex_wake(&service->wished, 1);
    return pthread_mutex_trylock(&service->turning) == 0;
}

void inner_await_wish(likes_service *service, uint64_t until) {
    uint32_t none = 0;
    if (atomic_compare_exchange_strong(&service->wished, &none, INNER_WATCHED))
        inner_futex_wait(&service->wished, INNER_WATCHED, until);
    service->wished = 0;
}

static void end_round(likes_service *service) {
    service->quiet = atomic_exchange(&service->is_used, false) ? 0 : service->quiet + 1;
}

uint32_t inner_turn(inner_member *member, uint32_t end) {
    likes_service *service = member->service;
    uint32_t status = likes_client_drive(&member->client, end);
    if (status == LIKES_RELEASED)
        service->released = service->released + 1;
    if (status == LIKES_ANNOUNCED || status == LIKES_RELEASED)
        service->is_ending = status == LIKES_ANNOUNCED;
    if (status == LIKES_ANNOUNCED || (status == LIKES_RELEASED && service->released % 2 == 0))
        service->work = service->all;
    return status;
}

/* The turn in a split phase, or at its end. From the end of one split phase to that of the next is a period, or less
 * where the looks that wait at a seat take half of its room. A phase that threads missed goes on until they have made
 * their calls. */
static uint32_t split_turn(inner_member *member, uint64_t now) {
    likes_service *service = member->service;
    if (!service->is_ending && service->starving > 0)
        return LIKES_GOES_ON;
    uint32_t status = inner_turn(member, service->due <= now ? LIKES_END_IF_IT_SERVES : LIKES_NO_END);
    if (status == LIKES_ANNOUNCED) {
        service->due = now + service->period;
        end_round(service);
    }
    return status;
}

/* The turn in a joined phase, or at its end. It ends as soon as every seat has run what waited. Where no page is split
 * it goes on, and the driver looks for hot pages once in a period, and at least once in a millisecond. Each choice
 * forgets a part of what it knows, so with more of them a page would need more likes to get hot. Where no call is made
 * it goes on too. */
static uint32_t joined_turn(inner_member *member, uint64_t now, bool is_new) {
    likes_service *service = member->service;
    bool is_due = !is_new && !service->is_ending && service->due <= now;
    if (is_due)
        end_round(service);
    bool may_end = (is_new || is_due) && service->quiet < QUIET_ROUNDS;
    uint32_t status = inner_turn(member, may_end ? LIKES_END_IF_IT_SERVES : LIKES_NO_END);
    bool goes_on = status == LIKES_GOES_ON || status == LIKES_ENDED;
    if (status == LIKES_RELEASED && service->due < now + service->period / 2)
        service->due = now + service->period / 2;
    if (goes_on && (is_new || is_due))
        service->due = now + (service->period < INNER_CHOICE_TIME ? service->period : INNER_CHOICE_TIME);
    service->may_rest = goes_on && service->quiet >= QUIET_ROUNDS;
    return status;
}

/* The driver's turn. It wakes threads that sleep until a phase is released, but for a joined one that ends at once, and
 * the driver's thread, if it would sleep past the time at which the phase may end now: that is written before `wakes_at`
 * is read here, and it writes that before it reads the time. A phase that is ending needs it not: the last seat to
 * answer makes the turn. */
static uint32_t driver_turn(inner_member *member) {
    likes_service *service = member->service;
    uint64_t now = inner_clock(), phase = service->released;
    service->may_rest = false;
    uint32_t status = phase % 2 == 0 ? joined_turn(member, now, false) : split_turn(member, now);
    if (phase % 2 == 1 && status == LIKES_RELEASED)
        status = joined_turn(member, now, true);
    bool has_news = service->released != phase && status != LIKES_ANNOUNCED;
    if (has_news)
        inner_futex_wake((_Atomic uint32_t *)&service->released, INT_MAX);
    if (!service->is_ending && service->due + INNER_SPIN_TIME < service->wakes_at)
        inner_call(service);
    return status;
}

/* Makes turns while there are wishes, and unlocks `turning`. */
static uint32_t make_turns(inner_member *member) {
    likes_service *service = member->service;
    uint32_t status;
    do {
        service->wished = 0;
        status = driver_turn(member);
        pthread_mutex_unlock(&service->turning);
    } while (service->wished == INNER_WISHED && pthread_mutex_trylock(&service->turning) == 0);
    return status;
}

/* Others may make turns while this thread does the seats' work, also what others have begun: they may have no processor.
 * After that it makes another turn. */
uint32_t inner_turns(inner_member *member) {
    uint32_t status = wish(member->service) ? make_turns(member) : (uint32_t)LIKES_NOT_ALL_IN;
    while (inner_work(member))
        if (wish(member->service))
            make_turns(member);
    return status;
}

void inner_stir(inner_member *member) {
    likes_service *service = member->service;
    service->quiet = 0;
    inner_note_use(service);
    service->due = 0;
    /* Turns that are not driver_turn's wake nobody. */
    inner_futex_wake((_Atomic uint32_t *)&service->released, INT_MAX);
    pthread_mutex_unlock(&service->turning);
    inner_turns(member);
    inner_call(service);
}

/* These two may be called by a thread that has locked a seat. */
uint32_t likes_service_drive(likes_service *service) {
    inner_member *member;
    uint32_t fault = inner_enter(service, false, &member);
    return fault == LIKES_OK || fault == LIKES_HOLDS_SEAT ? inner_turns(member) : fault;
}

void likes_service_tick(likes_service *service) {
    if (likes_service_fault(service) == LIKES_OK && service->due <= inner_clock())
        likes_service_drive(service);
}

void likes_service_seat_turns(likes_service *service) {
    inner_member *member;
    uint32_t fault = inner_enter(service, false, &member);
    if (fault != LIKES_OK && fault != LIKES_HOLDS_SEAT)
        return;
    service->work = service->all;
    inner_turns(member);
}
