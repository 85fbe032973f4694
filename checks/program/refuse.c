/* Refuses calls of the program that it is loaded before (LD_PRELOAD), like a machine that has no more to give.
 *
 * REFUSE_COUNTS names a file of 64-bit numbers, a struct of counts, with the calls of each kind and the growths of each
 * thread. REFUSE is "KIND FIRST LAST": the calls of that kind from FIRST to LAST are refused, counted from 1; without
 * it none is. With REFUSE_AGAIN the program does the same once more in the same process, with nothing refused. Between
 * the two it writes AGAIN on both outputs, and the status of the first to the file of REFUSE_COUNTS. */
#define _GNU_SOURCE
#include <dlfcn.h>
#include <errno.h>
#include <fcntl.h>
#include <pthread.h>
#include <setjmp.h>
#include <signal.h>
#include <stdarg.h>
#include <stdio.h>
#include <stdlib.h>
#include <sys/mman.h>
#include <unistd.h>

enum kind { GROWTH, START, OPEN, READ, WRITE, KINDS };

#define AGAIN "\n-- again --\n"

/* Starts and joins of threads that are noted, at most. */
#define NOTED 1000

/* Places in the program that are noted, at most. */
#define PLACES 64

static struct counts {
    unsigned long of[KINDS];
    unsigned long status;
    /* The blocks of memory that were taken and not given back at the end; below 0 until then. */
    long left;
    /* The growths of each thread but the main one, by its number. */
    unsigned long bodies[NOTED];
    /* The starts and joins of the main thread: how many growths it made until then, and the started thread's number. */
    unsigned long noted;
    struct { unsigned long growths, thread; } events[NOTED];
    /* The places in the program that asked for a growth and were refused, and those that asked for the last growth before
     * the start of a thread, which is the thread's own. */
    unsigned long refused[PLACES], own[PLACES];
} *counts;

static unsigned long kind, first, last;
static int is_again;

/* The blocks of memory that were taken and not given back until now, and how many threads have not ended. */
static long held;
static long alive;

/* The number of this thread, from 1, and 0 for the main thread; how many growths it made; whether it is in the C library,
 * to start or join another or to end. What that takes and gives back doesn't count. */
static __thread unsigned long number, growths;
static __thread int is_inside;

/* The place in the program that asked for this thread's last growth. */
static __thread void *asker;

__attribute__((constructor)) static void begin(void) {
    int file = open(getenv("REFUSE_COUNTS"), O_RDWR);
    counts = mmap(NULL, sizeof *counts, PROT_READ | PROT_WRITE, MAP_SHARED, file, 0);
    if (counts == MAP_FAILED)
        abort();
    close(file);
    counts->left = -1;
    const char *refused = getenv("REFUSE");
    if (refused && sscanf(refused, "%lu %lu %lu", &kind, &first, &last) != 3)
        abort();
}

/* Counts a call, and tells whether it is refused. Nothing is before the program's own calls begin. */
static int is_refused(enum kind of) {
    if (counts == NULL || counts == MAP_FAILED || is_again)
        return 0;
    unsigned long call = __atomic_add_fetch(&counts->of[of], 1, __ATOMIC_SEQ_CST);
    return of == kind && first <= call && call <= last;
}

static int refuses(enum kind of, int why) {
    int refused = is_refused(of);
    if (refused)
        errno = why;
    return refused;
}

#define NEXT(name) ((__typeof__(&name))dlsym(RTLD_NEXT, #name))

static void hold(long blocks) {
    if (!is_inside)
        __atomic_add_fetch(&held, blocks, __ATOMIC_SEQ_CST);
}

/* Notes a place in the program, as how far it is from the program's beginning. */
static void note_place(unsigned long *places, void *place) {
    Dl_info program;
    if (counts == NULL || counts == MAP_FAILED || is_again || !place || !dladdr(place, &program))
        return;
    unsigned long far = (char *)place - (char *)program.dli_fbase;
    for (int at = 0; at < PLACES; at++) {
        unsigned long none = 0;
        if (__atomic_compare_exchange_n(&places[at], &none, far, 0, __ATOMIC_SEQ_CST, __ATOMIC_SEQ_CST) || none == far)
            return;
    }
}

/* Counts a growth that a place in the program asks for, and tells whether it is refused. */
static int refuses_growth(void *place) {
    growths += !is_inside;
    if (!is_inside)
        asker = place;
    if (!refuses(GROWTH, ENOMEM))
        return 0;
    note_place(counts->refused, place);
    return 1;
}

void *malloc(size_t size) {
    void *block = refuses_growth(__builtin_return_address(0)) ? NULL : NEXT(malloc)(size);
    hold(block != NULL);
    return block;
}

void *realloc(void *block, size_t size) {
    void *moved = refuses_growth(__builtin_return_address(0)) ? NULL : NEXT(realloc)(block, size);
    hold(block == NULL && moved != NULL);
    return moved;
}

void free(void *block) {
    hold(block == NULL ? 0 : -1);
    NEXT(free)(block);
}

/* A thread's body with its value. */
struct body {
    void *(*call)(void *);
    void *value;
    unsigned long number;
};

static struct body bodies[NOTED];
static unsigned long started;

static void *run_body(void *value) {
    struct body *body = value;
    number = body->number;
    void *ended = body->call(body->value);
    counts->bodies[number] = growths;
    is_inside = 1;
    __atomic_sub_fetch(&alive, 1, __ATOMIC_SEQ_CST);
    return ended;
}

/* Notes a start of the main thread, or a join with the number 0. */
static void note(unsigned long thread) {
    if (number || is_again || counts->noted == NOTED)
        return;
    counts->events[counts->noted].growths = growths;
    counts->events[counts->noted++].thread = thread;
}

int pthread_create(pthread_t *thread, const pthread_attr_t *how, void *(*call)(void *), void *value) {
    note_place(counts->own, asker);
    if (is_refused(START))
        return EAGAIN;
    unsigned long of = __atomic_add_fetch(&started, 1, __ATOMIC_SEQ_CST);
    if (of < NOTED) {
        bodies[of] = (struct body){call, value, of};
        call = run_body;
        value = &bodies[of];
        __atomic_add_fetch(&alive, 1, __ATOMIC_SEQ_CST);
    }
    is_inside = 1;
    int failed = NEXT(pthread_create)(thread, how, call, value);
    is_inside = 0;
    if (!failed)
        note(of);
    else if (of < NOTED)
        __atomic_sub_fetch(&alive, 1, __ATOMIC_SEQ_CST);
    return failed;
}

int pthread_join(pthread_t thread, void **value) {
    note(0);
    is_inside = 1;
    int failed = NEXT(pthread_join)(thread, value);
    is_inside = 0;
    return failed;
}

int pthread_detach(pthread_t thread) {
    is_inside = 1;
    int failed = NEXT(pthread_detach)(thread);
    is_inside = 0;
    return failed;
}

int open(const char *name, int flags, ...) {
    va_list more;
    va_start(more, flags);
    int mode = va_arg(more, int);
    va_end(more);
    return refuses(OPEN, EIO) ? -1 : NEXT(open)(name, flags, mode);
}

ssize_t read(int file, void *bytes, size_t size) {
    return refuses(READ, EIO) ? -1 : NEXT(read)(file, bytes, size);
}

ssize_t write(int file, const void *bytes, size_t size) {
    return refuses(WRITE, EIO) ? -1 : NEXT(write)(file, bytes, size);
}

ssize_t __write(int file, const void *bytes, size_t size) {
    return write(file, bytes, size);
}

typedef int entry(int, char **, char **);

static entry *the_main;
static jmp_buf ended;
static pthread_t caller;

/* Waits for the other threads, for a second at most: one that nobody joins gives its last block back after all that it
 * does has been waited for. */
static void wait_for_threads(void) {
    for (int times = 0; times < 10000; times++) {
        if (__atomic_load_n(&alive, __ATOMIC_SEQ_CST) <= (number != 0))
            return;
        usleep(100);
    }
}

/* What ends the process ends the first of two passes in place of it. */
static void end_pass(int status) {
    wait_for_threads();
    counts->left = __atomic_load_n(&held, __ATOMIC_SEQ_CST);
    if (the_main && !is_again && pthread_equal(pthread_self(), caller))
        longjmp(ended, status + 1);
}

void abort(void) {
    end_pass(128 + SIGABRT);
    NEXT(abort)();
    __builtin_unreachable();
}

void _exit(int status) {
    end_pass(status);
    NEXT(_exit)(status);
    __builtin_unreachable();
}

static int main_twice(int count, char **words, char **settings) {
    caller = pthread_self();
    int jumped = setjmp(ended);
    int status = jumped ? jumped - 1 : the_main(count, words, settings);
    counts->status = status;
    is_again = 1;
    for (int out = 1; out <= 2; out++)
        if (write(out, AGAIN, sizeof AGAIN - 1) < 0)
            return 1;
    return the_main(count, words, settings);
}

int __libc_start_main(entry *main, int count, char **words, void (*init)(void), void (*fini)(void),
                      void (*leave)(void), void *stack) {
    entry *begun = main;
    if (getenv("REFUSE_AGAIN")) {
        the_main = main;
        begun = main_twice;
    }
    return NEXT(__libc_start_main)(begun, count, words, init, fini, leave, stack);
}
