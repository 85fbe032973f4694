/* What the programs of checks/library/ and bench/ share: clocks, threads, random numbers, and how a program ends where
 * something is wrong. */
#ifndef HARNESS_H
#define HARNESS_H

#ifndef _GNU_SOURCE
#define _GNU_SOURCE
#endif

#include <errno.h>
#include <pthread.h>
#include <sched.h>
#include <stdio.h>
#include <stdlib.h>
#include <string.h>
#include <time.h>
#include <unistd.h>

#include "opening.h"

/* The time of a clock, in nanoseconds: CLOCK_THREAD_CPUTIME_ID is the processor time of this thread. */
static inline uint64_t clock_of(clockid_t id) {
    struct timespec now;
    clock_gettime(id, &now);
    return (uint64_t)now.tv_sec * UINT64_C(1000000000) + (uint64_t)now.tv_nsec;
}

/* That of a clock that never goes back. */
static inline uint64_t clock_now(void) {
    return clock_of(CLOCK_MONOTONIC);
}

static inline void sleep_for(uint64_t nanoseconds) {
    struct timespec length = {(time_t)(nanoseconds / 1000000000), (long)(nanoseconds % 1000000000)};
    nanosleep(&length, NULL);
}

/* Ends the program with a line, unless something is right. */
static inline void hold(bool is_right, const char *text) {
    if (!is_right) {
        printf("wrong: %s\n", text);
        exit(1);
    }
}

static inline void hold_answer(int line, const char *call, uint64_t is, uint64_t should) {
    if (is != should) {
        printf("line %d: %s is %llu (%s), not %llu\n", line, call, (unsigned long long)is,
               likes_status_text((uint32_t)is), (unsigned long long)should);
        exit(1);
    }
}

/* An error number that no call sets. */
#define UNTOUCHED 4711

/* Ends the program with a line, unless a call gives this answer and leaves errno as it was. */
#define IS(call, expected)                                         \
    do {                                                           \
        errno = UNTOUCHED;                                         \
        uint64_t it_is = (uint64_t)(call);                         \
        hold(errno == UNTOUCHED, #call ": errno has changed");     \
        hold_answer(__LINE__, #call, it_is, (uint64_t)(expected)); \
    } while (0)

static inline void start_thread(pthread_t *thread, void *(*work)(void *), void *at) {
    hold(pthread_create(thread, NULL, work, at) == 0, "no thread was started");
}

/* A flag that one thread sets and others wait for. */
static inline bool is_set(const bool *flag) {
    return __atomic_load_n(flag, __ATOMIC_SEQ_CST);
}

static inline void set(bool *flag) {
    __atomic_store_n(flag, true, __ATOMIC_SEQ_CST);
}

/* The next random number (SplitMix64). */
static inline uint64_t drawn(uint64_t *random) {
    uint64_t it = *random += UINT64_C(0x9e3779b97f4a7c15);
    it = (it ^ it >> 30) * UINT64_C(0xbf58476d1ce4e5b9);
    it = (it ^ it >> 27) * UINT64_C(0x94d049bb133111eb);
    return it ^ it >> 31;
}

static inline uint64_t below(uint64_t *random, uint64_t bound) {
    return drawn(random) % bound;
}

/* A random rank: each has a share of the last of these sums, its own sum less the one before. */
static inline uint32_t drawn_rank(uint64_t *random, const double *sums, uint32_t ranks) {
    double at = (double)(drawn(random) >> 11) * 0x1p-53 * sums[ranks - 1];
    uint32_t low = 0, high = ranks - 1;
    while (low < high) {
        uint32_t middle = (low + high) / 2;
        if (sums[middle] > at)
            high = middle;
        else
            low = middle + 1;
    }
    return low;
}

static inline int compare_numbers(const void *one, const void *other) {
    double difference = *(const double *)one - *(const double *)other;
    return difference < 0 ? -1 : difference > 0;
}

/* The median of numbers, which it puts in order. */
static inline double median_of(double *numbers, size_t length) {
    qsort(numbers, length, sizeof *numbers, compare_numbers);
    return (numbers[(length - 1) / 2] + numbers[length / 2]) / 2;
}

#endif
