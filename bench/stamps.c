/* bench/core.sh loads this into `likes` to time the threads of its run. Threads that the first thread starts and that
 * run in parallel are a group. One group reads the files, one has the run's workers and submitters, others make the
 * report; with four submitters the run's group has the most threads. At the end of the program, the seconds from the
 * start of the first thread of that group to the end of its last one are written to the file that STAMPS names. */
#define _GNU_SOURCE
#include <dlfcn.h>
#include <pthread.h>
#include <stdio.h>
#include <stdlib.h>
#include <time.h>

static pthread_t first;
static double began, took;
static int running, started, most;

static double now(void) {
    struct timespec time;
    clock_gettime(CLOCK_MONOTONIC, &time);
    return time.tv_sec + time.tv_nsec * 1e-9;
}

__attribute__((constructor)) static void note_the_first_thread(void) {
    first = pthread_self();
}

static int is_first(void) {
    return pthread_equal(pthread_self(), first);
}

int pthread_create(pthread_t *thread, const pthread_attr_t *attributes, void *(*start)(void *), void *with) {
    int (*create)(pthread_t *, const pthread_attr_t *, void *(*)(void *), void *) = dlsym(RTLD_NEXT, "pthread_create");
    if (is_first() && running == 0) {
        began = now();
        started = 0;
    }
    int failed = create(thread, attributes, start, with);
    if (is_first() && !failed) {
        running++;
        started++;
    }
    return failed;
}

int pthread_join(pthread_t thread, void **result) {
    int (*join)(pthread_t, void **) = dlsym(RTLD_NEXT, "pthread_join");
    int failed = join(thread, result);
    if (is_first() && --running == 0 && started > most) {
        most = started;
        took = now() - began;
    }
    return failed;
}

void _exit(int status) {
    void (*leave)(int) __attribute__((noreturn)) = dlsym(RTLD_NEXT, "_exit");
    FILE *file = fopen(getenv("STAMPS"), "w");
    if (file) {
        fprintf(file, "%.6f\n", took);
        fclose(file);
    }
    leave(status);
}
