/* Time, in nanoseconds, and sleeping until a number changes. */
#ifndef INNER_SLEEP_H
#define INNER_SLEEP_H

#include <errno.h>
#include <limits.h>
#include <linux/futex.h>
#include <stdbool.h>
#include <stdint.h>
#include <sys/syscall.h>
#include <time.h>
#include <unistd.h>

/* A time that never comes. */
#define INNER_NEVER UINT64_MAX

/* A clock that never goes back. */
static inline uint64_t inner_clock(void) {
    struct timespec now;
    clock_gettime(CLOCK_MONOTONIC, &now);
    return (uint64_t)now.tv_sec * UINT64_C(1000000000) + (uint64_t)now.tv_nsec;
}

/* Whether a time has come. */
static inline bool inner_is_over(uint64_t until) {
    return until != INNER_NEVER && inner_clock() >= until;
}

/* Passes some cycles, for a thread that looks at a number again and again. */
static inline void inner_pause(void) {
#if defined(__x86_64__) || defined(__i386__)
    __builtin_ia32_pause();
#endif
}

/* Sleeps while a number is this one, until a time at most, or until it is woken. It may wake early. */
static inline void inner_futex_wait(_Atomic uint32_t *at, uint32_t number, uint64_t until) {
    struct timespec time = {(time_t)(until / 1000000000), (long)(until % 1000000000)};
    int error = errno;
    syscall(SYS_futex, at, FUTEX_WAIT_BITSET_PRIVATE, number, until == INNER_NEVER ? NULL : &time, NULL,
            FUTEX_BITSET_MATCH_ANY);
    errno = error;
}

/* Wakes this many threads that sleep so. */
static inline void inner_futex_wake(_Atomic uint32_t *at, int most) {
    int error = errno;
    syscall(SYS_futex, at, FUTEX_WAKE_PRIVATE, most, NULL, NULL, 0);
    errno = error;
}

#endif
