/* An explorer of schedules: cases, and what they may ask of it. */
#ifndef EXPLORE_H
#define EXPLORE_H

#include "../../../library/service/service.h"

/* A case: it sets a service up, by one schedule, and has threads whose steps are then taken in every order. A thread's
 * first lines, up to ready(), are of the set-up too. */
typedef struct explore_case {
    const char *name;
    void (*set_up)(void);
    void (*threads[3])(void);
    int preemptions;   /* how often a thread is stopped that could go on; -1: every schedule */
    bool has_no_driver; /* the driver's thread takes no steps after the set-up */
    bool (*is_wrong)(void); /* once all threads are done, and where all sleep */
} explore_case;

extern const explore_case explore_cases[];

/* What all cases have. */
extern likes_service *explored;

void ready(void);

/* pthread_mutex_lock, for a case. */
int explore_mutex_lock(pthread_mutex_t *mutex);

/* A call that has to return in a time, in nanoseconds. Time passes only while no thread can go on. */
void begin_call(const char *name, uint64_t most);
void end_call(void);

/* Something is wrong. */
void fail(const char *what);

/* Waits in the model's time. */
void nap(uint64_t nanoseconds);

uint64_t model_time(void);

/* stub.c: whether nobody has a seat, whether it has phase work to do, or found looks; and the phase. */
bool stub_is_free(const likes_shared *shared, uint32_t seat);
bool stub_has_work(const likes_shared *shared, uint32_t seat);
bool stub_has_found(const likes_shared *shared, uint32_t seat);
bool stub_is_ending(const likes_shared *shared);
bool stub_all_in(const likes_shared *shared);
uint64_t stub_phase(const likes_shared *shared);

#endif
