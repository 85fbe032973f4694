/* The driver's thread. */
#include "service.h"

/* The rest is over for all calls before the thread is woken: it may begin another one at once. */
void inner_call(likes_service *service) {
    service->is_resting = false;
    service->call += 1;
    inner_futex_wake(&service->call, 1);
}

/* Begins a rest where no calls are made. Whether it did. Only this thread does. A call notes itself before it loads
 * `is_resting`: so it is seen here, once that is stored, or it sees that, and calls this thread. */
static bool rests(likes_service *service) {
    if (!service->may_rest)
        return false;
    service->is_resting = true;
    bool is_used = service->is_used;
    if (is_used)
        service->is_resting = false;
    return !is_used;
}

/* Until when the thread sleeps: until the phase is due, or where that is ending, or another thread has yet to end it, for
 * a period, and for a millisecond at least. Where writers are open, until the next pulse at most. */
static uint64_t wake_time(const likes_service *service, bool is_busy, uint64_t beat) {
    bool is_ending = service->is_ending;
    uint64_t now = inner_clock(), least = now + INNER_SPIN_TIME, time = service->due;
    if (is_ending || (is_busy && time <= now))
        time = now + (service->period > INNER_CHOICE_TIME ? service->period : INNER_CHOICE_TIME);
    if (service->writers > 0 && beat < time)
        time = beat;
    return time < least ? least : time;
}

/* Goes on to the next pulse, if it is due, or the service begins to rest. When the one after it is due. */
static uint64_t pulse(likes_service *service, bool is_resting, uint64_t beat) {
    uint64_t now = inner_clock();
    if (now < beat && !is_resting)
        return beat;
    service->pulse++;
    return now + service->period;
}

/* Whoever calls the thread after it has read `call` keeps it from its sleep: so it reads that before `is_stopping`. */
void *inner_driver(void *at) {
    likes_service *service = (likes_service *)at;
    uint64_t beat = inner_clock() + service->period;
    for (uint32_t call = service->call; !service->is_stopping; call = service->call) {
        uint64_t until = INNER_NEVER;
        service->is_resting = false;
        inner_turns(service->own);
        bool is_busy = pthread_mutex_trylock(&service->turning) != 0, is_resting = !is_busy && rests(service);
        if (!is_busy)
            pthread_mutex_unlock(&service->turning);
        inner_turns(service->own);
        beat = pulse(service, is_resting, beat);
        service->wakes_at = is_resting ? 0 : INNER_NEVER;
        if (!is_resting)
            service->wakes_at = until = wake_time(service, is_busy, beat);
        inner_futex_wait(&service->call, call, until);
        service->wakes_at = 0;
    }
    return NULL;
}
