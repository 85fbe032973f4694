/* Takes the steps of a few threads in every order, through the service's own code.
 *
 * library/ and stub.c are compiled for the thread sanitizer, whose calls before each atomic step are here: each is a
 * point at which another thread may go on. So are calls of locks, futexes, sleeps and the clock, which get other names
 * in the object (explore). A store that isn't sequentially consistent leaves its thread through a store buffer, at any
 * later time. A state is the bytes of all memory that the code has, and of the stacks; none is entered twice.
 *
 * Time stands still while any thread can go on. So a call that takes time has waited for a timeout. Where all threads
 * sleep, nothing may be left that one of them should do. */
#include "explore.h"

#include <stdarg.h>
#include <stdio.h>
#include <stdlib.h>

enum { MOST = 6, STACK = 1 << 15, HEAP = 1 << 16, BUFFER = 4, DEPTH = 100000, SLICE = 100000 };

enum wait { READY, MUTEX, FUTEX, SLEEP, YIELD, JOIN, DONE, PARKED };

typedef struct store {
    void *at;
    uint64_t value, size;
} store;

typedef struct thread {
    void *sp;
    inner_thread mine;
    enum wait wait;
    uint32_t buffered;
    const void *object; /* what it waits for */
    uint64_t until;     /* how long it sleeps at most */
    store buffer[BUFFER];
    const char *call; /* which it makes, and since when */
    uint64_t began, most;
} thread;

/* What belongs to a state, beside the stacks. */
static struct {
    uint64_t now, lost; /* how much of it threads have lost that yielded */
    uint64_t used, threads, left; /* how much of the heap is used; how many threads of the case aren't done */
    thread all[MOST];
    _Alignas(128) char heap[HEAP];
} state;

static char stacks[MOST][STACK] __attribute__((aligned(64)));
static void (*begins[MOST])(void);
static void *(*driver)(void *);
static void *explorer_sp, *driver_at;
static uint32_t current;
static bool is_exploring, is_buffering, is_tracing;
static const explore_case *the_case;
static const char *failed;
static uint64_t failed_by;
likes_service *explored;

/* The memory of the explored objects, which lie between these (bounds.c). */
extern char explore_data_begin[], explore_data_end[], explore_bss_begin[], explore_bss_end[];

void explore_switch(void **save, void *load);
__asm__(".text\n.globl explore_switch\nexplore_switch:\n"
        "pushq %rbp\npushq %rbx\npushq %r12\npushq %r13\npushq %r14\npushq %r15\n"
        "movq %rsp,(%rdi)\nmovq %rsi,%rsp\n"
        "popq %r15\npopq %r14\npopq %r13\npopq %r12\npopq %rbx\npopq %rbp\nret\n");

/* The memory of the explored code. */
static void note(const char *what, uint64_t by) {
    if (failed == NULL) {
        failed = what;
        failed_by = by;
    }
}

/* Back to the explorer. */
static void leave(void) {
    thread *me = &state.all[current];
    me->mine = inner_mine;
    explore_switch(&me->sp, explorer_sp);
    inner_mine = state.all[current].mine;
}

static void trace(const char *what, const void *at, uint64_t value, const void *from) {
    if (is_tracing)
        printf("  %u %p %s %p %llu\n", current, from, what, at, (unsigned long long)value);
}

/* A point before a step. */
static void point(void) {
    if (is_exploring)
        leave();
}

static uint64_t get(const volatile void *at, uint64_t size) {
    uint64_t value = 0;
    memcpy(&value, (const void *)at, size);
    return value;
}

static void put(volatile void *at, uint64_t value, uint64_t size) {
    memcpy((void *)at, &value, size);
}

static void drain_one(thread *of) {
    put(of->buffer[0].at, of->buffer[0].value, of->buffer[0].size);
    of->buffered--;
    memmove(of->buffer, of->buffer + 1, of->buffered * sizeof(store));
    memset(&of->buffer[of->buffered], 0, sizeof(store));
}

static void drain(void) {
    while (state.all[current].buffered > 0)
        drain_one(&state.all[current]);
}

/* Numbers that no thread waits for: what a thread did, and a seat's holder. */
static bool is_dull(const volatile void *at) {
    const volatile char *byte = (const volatile char *)at;
    bool is = false;
    if (explored == NULL)
        return false;
    for (uint32_t i = 0; i < explored->seats; i++)
        is |= at == &explored->seat[i].calls;
    const inner_member *member = inner_mine.members[explored->id % 8].member;
    const char *begin = member == NULL ? NULL : (const char *)&member->likes;
    return is || (begin != NULL && byte >= begin && byte <= (const char *)&member->late);
}

static uint64_t load(const volatile void *at, uint64_t size, const void *from) {
    thread *me = &state.all[current];
    for (uint32_t i = me->buffered; i-- > 0;)
        if (me->buffer[i].at == at)
            return me->buffer[i].value;
    if (!is_dull(at))
        point();
    trace("loads", (const void *)at, get(at, size), from);
    return get(at, size);
}

static void put_later(volatile void *at, uint64_t value, uint64_t size) {
    thread *me = &state.all[current];
    if (me->buffered == BUFFER)
        drain_one(me);
    me->buffer[me->buffered++] = (store){(void *)at, value, size};
}

static void set(volatile void *at, uint64_t value, uint64_t size, int order, const void *from) {
    if (is_dull(at) || !is_exploring) {
        put(at, value, size);
    } else if (is_buffering && order != __ATOMIC_SEQ_CST) {
        trace("buffers", (void *)at, value, from);
        put_later(at, value, size);
    } else {
        point();
        drain();
        trace("stores", (void *)at, value, from);
        put(at, value, size);
    }
}

/* Before a step that reads and writes. */
static uint64_t begin_change(const volatile void *at, uint64_t size, const void *from) {
    point();
    drain();
    trace("changes", (const void *)at, get(at, size), from);
    return get(at, size);
}

#define FROM __builtin_return_address(0)

/* What the thread sanitizer's code calls. */
#define ATOMICS(bits, type)                                                                                            \
    type __tsan_atomic##bits##_load(const volatile type *at, int order);                                               \
    type __tsan_atomic##bits##_load(const volatile type *at, int order) {                                              \
        (void)order;                                                                                                   \
        return (type)load(at, sizeof *at, FROM);                                                                       \
    }                                                                                                                  \
    void __tsan_atomic##bits##_store(volatile type *at, type value, int order);                                        \
    void __tsan_atomic##bits##_store(volatile type *at, type value, int order) {                                       \
        set(at, (uint64_t)value, sizeof *at, order, FROM);                                                             \
    }                                                                                                                  \
    CHANGE(bits, type, exchange, value)                                                                                \
    CHANGE(bits, type, fetch_add, was + value)                                                                         \
    CHANGE(bits, type, fetch_sub, was - value)                                                                         \
    CHANGE(bits, type, fetch_and, was &value)                                                                          \
    CHANGE(bits, type, fetch_or, was | value)                                                                          \
    int __tsan_atomic##bits##_compare_exchange_strong(volatile type *at, type *expected, type value, int, int);        \
    int __tsan_atomic##bits##_compare_exchange_strong(volatile type *at, type *expected, type value, int order,        \
                                                      int other) {                                                     \
        (void)order, (void)other;                                                                                      \
        type was = (type)begin_change(at, sizeof *at, FROM);                                                           \
        bool is_same = was == *expected;                                                                               \
        if (is_same)                                                                                                   \
            put(at, (uint64_t)value, sizeof *at);                                                                      \
        *expected = was;                                                                                               \
        return is_same;                                                                                                \
    }
#define CHANGE(bits, type, name, made)                                                                                 \
    type __tsan_atomic##bits##_##name(volatile type *at, type value, int order);                                       \
    type __tsan_atomic##bits##_##name(volatile type *at, type value, int order) {                                      \
        (void)order;                                                                                                   \
        type was = (type)begin_change(at, sizeof *at, FROM);                                                           \
        put(at, (uint64_t)(type)(made), sizeof *at);                                                                   \
        return was;                                                                                                    \
    }
ATOMICS(8, uint8_t)
ATOMICS(32, uint32_t)
ATOMICS(64, uint64_t)

/* Sleeps, or waits for something. */
static void block(enum wait wait, const void *object, uint64_t until) {
    thread *me = &state.all[current];
    me->wait = wait;
    me->object = object;
    me->until = until;
    leave();
    me->wait = READY;
    me->object = NULL;
    me->until = 0;
}

/* Before other reads and writes, which are no points. */
#define NO_POINT(name)    \
    void name(void *at);  \
    void name(void *at) { \
        (void)at;         \
    }
#define NO_POINTS(size)                      \
    NO_POINT(__tsan_read##size)              \
    NO_POINT(__tsan_write##size)             \
    NO_POINT(__tsan_unaligned_read##size)    \
    NO_POINT(__tsan_unaligned_write##size)
NO_POINTS(1)
NO_POINTS(2)
NO_POINTS(4)
NO_POINTS(8)
NO_POINTS(16)
NO_POINT(__tsan_read_range)
NO_POINT(__tsan_write_range)
NO_POINT(__tsan_func_entry)
NO_POINT(__tsan_func_exit)
NO_POINT(__tsan_init)
NO_POINT(__tsan_atomic_signal_fence)

/* Locks: the word of a mutex is 1 while it is locked. */
static uint32_t *word_of(pthread_mutex_t *mutex) {
    return (uint32_t *)mutex;
}

int explore_mutex_trylock(pthread_mutex_t *mutex);
int explore_mutex_trylock(pthread_mutex_t *mutex) {
    bool is_free = begin_change(word_of(mutex), 4, FROM) == 0;
    if (is_free)
        *word_of(mutex) = 1;
    return is_free ? 0 : EBUSY;
}

int explore_mutex_lock(pthread_mutex_t *mutex) {
    block(MUTEX, mutex, INNER_NEVER);
    drain();
    trace("locks", mutex, 0, FROM);
    *word_of(mutex) = 1;
    return 0;
}

int explore_mutex_unlock(pthread_mutex_t *mutex);
int explore_mutex_unlock(pthread_mutex_t *mutex) {
    begin_change(word_of(mutex), 4, FROM);
    *word_of(mutex) = 0;
    return 0;
}

int explore_mutex_init(pthread_mutex_t *mutex, const void *attributes);
int explore_mutex_init(pthread_mutex_t *mutex, const void *attributes) {
    (void)attributes;
    *word_of(mutex) = 0;
    return 0;
}

int explore_mutex_destroy(pthread_mutex_t *mutex);
int explore_mutex_destroy(pthread_mutex_t *mutex) {
    (void)mutex;
    return 0;
}

static uint64_t time_of(const struct timespec *time) {
    return time == NULL ? INNER_NEVER : (uint64_t)time->tv_sec * UINT64_C(1000000000) + (uint64_t)time->tv_nsec;
}

/* Wakes threads that sleep so. */
static void wake(const uint32_t *at, uint32_t most) {
    for (uint32_t i = 0; i < state.threads; i++)
        if (state.all[i].wait == FUTEX && state.all[i].object == at && most > 0) {
            state.all[i].wait = READY;
            most--;
        }
}

long explore_syscall(long number, ...);
long explore_syscall(long number, ...) {
    va_list words;
    va_start(words, number);
    uint32_t *at = va_arg(words, uint32_t *);
    int op = va_arg(words, int);
    uint32_t value = va_arg(words, uint32_t);
    const struct timespec *time = va_arg(words, const struct timespec *);
    va_end(words);
    if (number != SYS_futex || (op != FUTEX_WAKE_PRIVATE && op != FUTEX_WAIT_BITSET_PRIVATE))
        abort();
    uint64_t is = begin_change(at, 4, FROM);
    if (op == FUTEX_WAKE_PRIVATE) {
        wake(at, value);
    } else if (is == value) {
        trace("sleeps", at, value, FROM);
        block(FUTEX, at, time_of(time));
    }
    return 0;
}

int explore_clock(clockid_t clock, struct timespec *now);
int explore_clock(clockid_t clock, struct timespec *now) {
    (void)clock;
    *now = (struct timespec){(time_t)(state.now / 1000000000), (long)(state.now % 1000000000)};
    return 0;
}

/* A thread that yields lets all others go on. If all sleep, some time passes, which isn't held against a call. */
int explore_yield(void);
int explore_yield(void) {
    drain();
    block(YIELD, NULL, state.now + SLICE);
    return 0;
}

void nap(uint64_t nanoseconds) {
    drain();
    block(SLEEP, NULL, state.now + nanoseconds);
}

uint64_t model_time(void) {
    return state.now;
}

void ready(void) {
    if (!is_exploring)
        block(PARKED, NULL, INNER_NEVER);
}

void begin_call(const char *name, uint64_t most) {
    thread *me = &state.all[current];
    me->call = name;
    me->began = state.now - state.lost;
    me->most = most;
}

void end_call(void) {
    thread *me = &state.all[current];
    uint64_t took = state.now - state.lost - me->began;
    if (took > me->most)
        note(me->call, took);
    me->call = NULL;
}

void fail(const char *what) {
    note(what, 0);
}

static void run_thread(void) {
    memset(&inner_mine, 0, sizeof inner_mine);
    if (begins[current] != NULL)
        begins[current]();
    else
        driver(driver_at);
    drain();
    state.left -= begins[current] != NULL;
    block(DONE, NULL, INNER_NEVER);
    abort();
}

static void spawn(void (*begin)(void)) {
    uint64_t number = state.threads++;
    void **sp = (void **)(stacks[number] + STACK);
    if (number >= MOST)
        abort();
    memset(&state.all[number], 0, sizeof state.all[number]);
    begins[number] = begin;
    *--sp = NULL;
    *--sp = (void *)run_thread;
    for (int i = 0; i < 6; i++)
        *--sp = NULL;
    state.all[number].sp = sp;
    state.left += begin != NULL;
}

int explore_create(pthread_t *to, const void *attributes, void *(*begin)(void *), void *at);
int explore_create(pthread_t *to, const void *attributes, void *(*begin)(void *), void *at) {
    (void)attributes;
    driver = begin;
    driver_at = at;
    *to = (pthread_t)state.threads;
    spawn(NULL);
    return 0;
}

int explore_join(pthread_t of, void **result);
int explore_join(pthread_t of, void **result) {
    (void)result;
    block(JOIN, &state.all[of], INNER_NEVER);
    return 0;
}

int explore_key(pthread_key_t *key, void (*end)(void *));
int explore_key(pthread_key_t *key, void (*end)(void *)) {
    (void)end;
    *key = 1;
    return 0;
}

int explore_specific(pthread_key_t key, const void *at);
int explore_specific(pthread_key_t key, const void *at) {
    (void)key, (void)at;
    return 0;
}

void *explore_aligned(size_t align, size_t size);
void *explore_aligned(size_t align, size_t size) {
    state.used = (state.used + align - 1) / align * align;
    void *at = state.heap + state.used;
    state.used += size;
    if (state.used > HEAP)
        abort();
    memset(at, 0, size);
    return at;
}

void *explore_malloc(size_t size);
void *explore_malloc(size_t size) {
    return explore_aligned(16, size);
}

void *explore_calloc(size_t count, size_t size);
void *explore_calloc(size_t count, size_t size) {
    return explore_aligned(16, count * size);
}

int explore_memalign(void **at, size_t align, size_t size);
int explore_memalign(void **at, size_t align, size_t size) {
    *at = explore_aligned(align, size);
    return 0;
}

void explore_free(void *at);
void explore_free(void *at) {
    (void)at;
}

/* Exploring. */

static bool can_go_on(uint32_t number) {
    const thread *it = &state.all[number];
    if (begins[number] == NULL && is_exploring && the_case->has_no_driver)
        return false;
    switch (it->wait) {
    case READY:
        return true;
    case MUTEX:
        return *(const uint32_t *)it->object == 0;
    case FUTEX:
    case SLEEP:
    case YIELD:
        return it->until <= state.now;
    case JOIN:
        return ((const thread *)it->object)->wait == DONE;
    default:
        return false;
    }
}

static void step(uint32_t number) {
    current = number;
    explore_switch(&explorer_sp, state.all[number].sp);
}

/* The next time at which a sleep ends. */
static uint64_t next_time(void) {
    uint64_t next = INNER_NEVER;
    for (uint32_t i = 0; i < state.threads; i++) {
        bool sleeps = state.all[i].wait >= FUTEX && state.all[i].wait <= YIELD;
        if (begins[i] == NULL && is_exploring && the_case->has_no_driver)
            continue;
        if (sleeps && state.all[i].until < next)
            next = state.all[i].until;
    }
    return next;
}

static bool is_still(void) {
    bool is = true;
    for (uint32_t i = 0; i < state.threads; i++)
        is &= !can_go_on(i) && state.all[i].buffered == 0;
    return is;
}

static bool sleeps_at(uint32_t number, const void *at) {
    return state.all[number].wait == FUTEX && state.all[number].object == at;
}

/* What is left at a seat that no thread has, where all sleep. */
static void check_seat(const inner_seat *seat) {
    uint32_t number = seat->number;
    if (!stub_is_free(&explored->shared, number))
        return;
    for (uint32_t i = 0; i < state.threads; i++)
        if (sleeps_at(i, (const void *)&seat->asleep))
            note("a thread sleeps at a free seat", 0);
    if (explored->work >> number & 1)
        note("work is left at a free seat", 0);
    if (stub_has_work(&explored->shared, number))
        note("phase work is left at a free seat", 0);
    if (stub_has_found(&explored->shared, number))
        note("a found look isn't told", 0);
}

/* The driver's thread, where all sleep. */
static void check_driver(void) {
    const thread *it = &state.all[1];
    bool is_due = explored->due + 2 * INNER_SPIN_TIME < it->until && state.now + 2 * INNER_SPIN_TIME < it->until;
    if (the_case->has_no_driver || it->wait != FUTEX)
        return;
    if (it->until == INNER_NEVER && !explored->is_resting)
        note("the driver's thread sleeps without end", 0);
    if (it->until == INNER_NEVER && explored->is_used)
        note("the service rests, and a call was made", 0);
    if (it->until == INNER_NEVER && (stub_phase(&explored->shared) % 2 == 1 || stub_is_ending(&explored->shared)))
        note("the service rests in a phase that should end", 0);
    if (it->until != INNER_NEVER && !stub_is_ending(&explored->shared) && is_due && *word_of(&explored->turning) == 0)
        note("the driver's thread sleeps while the phase is due", it->until - explored->due);
}

/* Where all sleep, is there something to do? */
static void check_still(void) {
    for (uint32_t i = 0; i < explored->seats; i++)
        check_seat(&explored->seat[i]);
    for (uint32_t i = 0; i < state.threads; i++)
        if (state.all[i].call != NULL && state.now - state.lost - state.all[i].began > state.all[i].most)
            note(state.all[i].call, state.now - state.lost - state.all[i].began);
    for (uint32_t i = 0; i < state.threads; i++)
        if (sleeps_at(i, (const void *)&explored->released) && state.all[i].until == INNER_NEVER && explored->is_resting)
            note("a thread waits for a phase while the service rests", 0);
    if (*word_of(&explored->turning) == 0 && explored->wished == INNER_WISHED)
        note("a wish is left", 0);
    if (*word_of(&explored->turning) == 0 && stub_is_ending(&explored->shared) && stub_all_in(&explored->shared))
        note("all seats have answered, and nobody makes the turn", 0);
    check_driver();
}

/* States: a hash of each that was entered, and the most preemptions that were left then. */
static struct entry {
    uint64_t hash;
    int32_t left;
} *entries;
static uint64_t entries_len, states;

static uint64_t mixed(uint64_t hash, const void *at, size_t length) {
    const char *bytes = (const char *)at;
    uint64_t word = 0;
    for (; length >= 8; length -= 8, bytes += 8) {
        memcpy(&word, bytes, 8);
        hash = (hash ^ word) * UINT64_C(0x9e3779b97f4a7c15);
        hash ^= hash >> 29;
    }
    word = 0;
    memcpy(&word, bytes, length);
    hash = (hash ^ word ^ length) * UINT64_C(0xbf58476d1ce4e5b9);
    return hash ^ hash >> 32;
}

typedef struct frame {
    char *saved;
    size_t size;
    uint32_t choices, next;
    uint8_t list[2 * MOST + 1];
    int32_t last, left; /* the last thread; how many preemptions may follow */
} frame;

static frame *frames;

/* The parts of a state. */
static size_t parts(char **at, size_t *lengths) {
    size_t many = 0;
    at[many] = (char *)&state, lengths[many++] = offsetof(__typeof__(state), heap) + state.used;
    at[many] = explore_data_begin, lengths[many++] = (size_t)(explore_data_end - explore_data_begin);
    at[many] = explore_bss_begin, lengths[many++] = (size_t)(explore_bss_end - explore_bss_begin);
    for (uint32_t i = 0; i < state.threads; i++) {
        at[many] = (char *)state.all[i].sp;
        lengths[many++] = (size_t)(stacks[i] + STACK - (char *)state.all[i].sp);
    }
    return many;
}

static void save(frame *to) {
    char *at[MOST + 3];
    size_t lengths[MOST + 3], many = parts(at, lengths), size = 0;
    for (size_t i = 0; i < many; i++)
        size += lengths[i];
    char *into = to->saved = (char *)malloc(size);
    to->size = size;
    for (size_t i = 0; i < many; into += lengths[i++])
        memcpy(into, at[i], lengths[i]);
}

static void restore(const frame *from) {
    char *at[MOST + 3], *out = from->saved;
    size_t lengths[MOST + 3];
    memcpy(&state, out, offsetof(__typeof__(state), heap));
    size_t many = parts(at, lengths);
    for (size_t i = 0; i < many; out += lengths[i++])
        memcpy(at[i], out, lengths[i]);
}

/* Whether the state was not entered yet with as many preemptions left. */
static bool is_new(int32_t last, int32_t left) {
    char *at[MOST + 3];
    size_t lengths[MOST + 3], many = parts(at, lengths);
    uint64_t hash = left < 0 ? 0 : (uint64_t)last + 1;
    for (size_t i = 0; i < many; i++)
        hash = mixed(hash, at[i], lengths[i]);
    hash |= 1;
    struct entry *it = &entries[hash % entries_len];
    while (it->hash != 0 && it->hash != hash)
        it = it + 1 < entries + entries_len ? it + 1 : entries;
    if (it->hash == hash && it->left >= left)
        return false;
    states += it->hash == 0;
    *it = (struct entry){hash, left};
    return true;
}

enum { DRAINS = MOST, TIME = 2 * MOST };

static void choose(frame *it) {
    bool last_can = it->last >= 0 && can_go_on((uint32_t)it->last), any = false;
    it->choices = it->next = 0;
    if (last_can)
        it->list[it->choices++] = (uint8_t)it->last;
    for (uint32_t i = 0; i < state.threads; i++) {
        bool can = can_go_on(i);
        any |= can || state.all[i].buffered > 0;
        if (can && (int32_t)i != it->last && (!last_can || it->left != 0))
            it->list[it->choices++] = (uint8_t)i;
        if (state.all[i].buffered > 0)
            it->list[it->choices++] = (uint8_t)(DRAINS + i);
    }
    if (!any && next_time() != INNER_NEVER)
        it->list[it->choices++] = TIME;
}

/* Lets time pass until a sleep ends. */
static void pass(void) {
    uint64_t next = next_time();
    for (uint32_t i = 0; i < state.threads; i++)
        if (state.all[i].wait == YIELD && state.all[i].until == next) {
            state.lost += next - state.now;
            break;
        }
    state.now = next;
}

static void take(uint32_t choice) {
    if (choice == TIME)
        pass();
    else if (choice >= DRAINS)
        drain_one(&state.all[choice - DRAINS]);
    else
        step(choice);
}

/* Prints the way to the present state, which is wrong. */
static void tell(int depth) {
    const char *what = failed;
    printf("wrong: %s: %s (%llu us)\n", the_case->name, what, (unsigned long long)failed_by / 1000);
    is_tracing = true;
    restore(&frames[0]);
    for (int i = 0; i < depth; i++) {
        uint32_t choice = frames[i].list[frames[i].next - 1];
        if (choice >= DRAINS && choice < TIME)
            printf("  %u's store buffer\n", choice - DRAINS);
        if (choice == TIME)
            printf("  time passes until %llu us\n", (unsigned long long)next_time() / 1000);
        take(choice);
    }
    is_tracing = false;
}

/* Explores from the present state. Whether all went well. */
static bool explore(uint64_t most) {
    int depth = 1;
    frames[0] = (frame){.last = -1, .left = the_case->preemptions};
    save(&frames[0]);
    choose(&frames[0]);
    failed = NULL;
    while (depth > 0 && states < most) {
        frame *top = &frames[depth - 1], *next = &frames[depth];
        if (top->next == top->choices) {
            free(top->saved);
            depth--;
            continue;
        }
        restore(top);
        uint32_t choice = top->list[top->next++];
        *next = (frame){.last = top->last, .left = top->left};
        if (choice < DRAINS) {
            next->left -= top->left > 0 && top->last >= 0 && (int32_t)choice != top->last &&
                          can_go_on((uint32_t)top->last);
            next->last = (int32_t)choice;
        }
        take(choice);
        bool still = failed == NULL && is_still();
        if (still)
            check_still();
        if (still && state.left > 0 && next_time() == INNER_NEVER)
            note("all threads sleep without end", 0);
        if (still && state.left == 0 && the_case->is_wrong != NULL && the_case->is_wrong())
            note("it ends as it should not", 0);
        if (failed != NULL) {
            tell(depth);
            return false;
        }
        if ((still && state.left == 0) || !is_new(next->last, next->left))
            continue;
        if (depth + 1 >= DEPTH)
            abort();
        save(next);
        choose(next);
        depth++;
    }
    if (depth > 0)
        printf("not all: ");
    return true;
}

/* Runs each thread as long as it can, and lets time pass, until a thread waits so. */
static void settle(uint32_t number, enum wait wait) {
    while (state.all[number].wait != wait) {
        uint32_t i = 0;
        while (i < state.threads && !can_go_on(i))
            i++;
        if (i < state.threads)
            step(i);
        else if (next_time() != INNER_NEVER)
            state.now = next_time();
        else
            abort();
    }
}

/* Until all sleep. */
static void settle_all(void) {
    for (uint32_t i = 0; i < state.threads; i++)
        while (can_go_on(i)) {
            step(i);
            i = 0;
        }
}

int main(int count, char **words) {
    uint64_t most = count > 3 ? strtoull(words[3], NULL, 10) : 4000000;
    const explore_case *it = explore_cases;
    if (count == 1)
        for (; it->name != NULL; it++)
            puts(it->name);
    if (count < 2)
        return 0;
    while (it->name != NULL && strcmp(it->name, words[1]) != 0)
        it++;
    if (it->name == NULL)
        return 2;
    the_case = it;
    is_buffering = count < 3 || strcmp(words[2], "sc") != 0;
    entries_len = 2 * most + 1;
    entries = (struct entry *)calloc(entries_len, sizeof *entries);
    frames = (frame *)malloc(DEPTH * sizeof *frames);
    state.now = UINT64_C(1000000000);
    spawn(it->set_up);
    settle(0, DONE);
    for (int i = 0; i < 3 && it->threads[i] != NULL; i++) {
        spawn(it->threads[i]);
        settle((uint32_t)state.threads - 1, PARKED);
    }
    settle_all();
    for (uint32_t i = 0; i < state.threads; i++)
        if (state.all[i].wait == PARKED)
            state.all[i].wait = READY;
    is_exploring = true;
    bool is_right = explore(most);
    printf("%s: %llu states\n", it->name, (unsigned long long)states);
    return is_right ? 0 : 1;
}
