/* Measures the cost of opening a service and of changing its phases. `bench/run live-phases` builds and runs it, and
 * says what it measures.
 *
 * It replaces malloc and its kin to count the memory in use, and calls those of the GNU C library by their other names.
 */
#include "../checks/library/harness.h"

#include <errno.h>
#include <malloc.h>

void *__libc_malloc(size_t size);
void *__libc_calloc(size_t number, size_t size);
void *__libc_realloc(void *block, size_t size);
void *__libc_memalign(size_t alignment, size_t size);
void __libc_free(void *block);

/* How many bytes are taken now, and at most since it was reset. */
static size_t taken, most;

/* Counts a block that is new, if there was memory for it. */
static void *counted(void *block) {
    taken += block != NULL ? malloc_usable_size(block) : 0;
    if (taken > most)
        most = taken;
    return block;
}

void *malloc(size_t size) {
    return counted(__libc_malloc(size));
}

void *calloc(size_t number, size_t size) {
    return counted(__libc_calloc(number, size));
}

void *aligned_alloc(size_t alignment, size_t size) {
    return counted(__libc_memalign(alignment, size));
}

int posix_memalign(void **to, size_t alignment, size_t size) {
    *to = counted(__libc_memalign(alignment, size));
    return *to == NULL ? ENOMEM : 0;
}

void free(void *block) {
    taken -= block != NULL ? malloc_usable_size(block) : 0;
    __libc_free(block);
}

void *realloc(void *block, size_t size) {
    size_t before = block != NULL ? malloc_usable_size(block) : 0;
    void *moved = __libc_realloc(block, size);
    if (moved != NULL || size == 0)
        taken -= before;
    return counted(moved);
}

enum { PAGES = 1000000, USERS = 1000000, ROOM = 256, TOUCHED = 12000000, SPLIT = 64, TIMES = 21, CHANGES = 1001 };
enum { SEATS = 4, RETURNS = 1000000 };

static uint64_t counts[PAGES];
static likes_driver driver;
static likes_seat seats[LIKES_MAX_SEATS];
static bool is_over;

/* How long this thread has had a processor, in microseconds: what else runs hardly changes that. */
static double worked(void) {
    return (double)clock_of(CLOCK_THREAD_CPUTIME_ID) / 1e3;
}

/* How many microseconds it takes to allocate and touch the memory that counts and last likes need. */
static double touch(void) {
    double began = worked();
    char *room = (char *)malloc(TOUCHED);
    hold(room != NULL, "out of memory");
    for (size_t i = 0; i < TOUCHED; i += 4096)
        *(volatile char *)&room[i] = 1;
    double took = worked() - began;
    free(room);
    return took;
}

static void open_service(uint32_t number, uint32_t pages, uint32_t users, uint32_t room, size_t marks_len) {
    uint32_t marks[SPLIT];
    likes_options options = {.seats = number, .users = users, .room = room, .hot = marks_len == 0 ? 100 : 0};
    for (uint32_t i = 0; i < SPLIT; i++)
        marks[i] = pages - 1 - i;
    hold(open_core(options, counts, pages, marks, marks_len, NULL, 0, &driver) == LIKES_OK, "no service was opened");
}

static void free_service(uint32_t number) {
    for (uint32_t i = 0; i < number; i++)
        likes_seat_free(&seats[i]);
    likes_driver_free(&driver);
}

/* Opens a service of a million pages. */
static void measure_opening(uint32_t number) {
    double opened[TIMES], touched[TIMES];
    size_t before = taken, peak = 0, kept = 0;
    for (int time = 0; time < TIMES; time++) {
        touched[time] = touch();
        most = taken;
        double began = worked();
        open_service(number, PAGES, USERS, ROOM, 0);
        opened[time] = worked() - began;
        peak = most - before;
        kept = taken - before;
        free_service(number);
        hold(taken == before, "memory was not given back");
    }
    double took = median_of(opened, TIMES), beside = median_of(touched, TIMES);
    printf("%5u %12.0f %12.0f %7.1fx %13.2f %13.2f\n", number, took, beside, took / beside,
           ((double)peak - TOUCHED) / 1e6, ((double)kept - TOUCHED) / 1e6);
}

/* Ends a phase and releases the next, which all seats enter. Gives how many microseconds that takes. */
static double change(uint32_t number) {
    double began = worked();
    hold(likes_driver_turn(&driver, LIKES_END_IF_IT_SERVES) == LIKES_ANNOUNCED, "no end was announced");
    for (uint32_t i = 0; i < number; i++)
        hold(likes_seat_turn(&seats[i]) == LIKES_BETWEEN, "a seat did not answer");
    hold(likes_driver_turn(&driver, LIKES_NO_END) == LIKES_RELEASED, "no phase was released");
    for (uint32_t i = 0; i < number; i++)
        hold(likes_seat_turn(&seats[i]) == LIKES_RUNS, "a seat did not enter the phase");
    return worked() - began;
}

/* Changes phases with 64 split pages, of which each seat likes each in each split phase. */
static void measure_changes(uint32_t number, uint32_t pages) {
    static double to_split[CHANGES], to_joined[CHANGES];
    open_service(number, pages, number, ROOM, SPLIT);
    for (uint32_t i = 0; i < number; i++)
        hold(likes_driver_take_seat(&driver, &seats[i]) == LIKES_OK, "no seat was taken");
    for (int time = 0; time < CHANGES; time++) {
        to_split[time] = change(number);
        for (uint32_t i = 0; i < number * SPLIT; i++)
            hold(likes_seat_like(&seats[i / SPLIT], i / SPLIT, pages - 1 - i % SPLIT) == LIKES_LIKED, "no like");
        to_joined[time] = change(number);
    }
    printf("%5u %10u %12.1f %12.1f\n", number, pages, median_of(to_split, CHANGES), median_of(to_joined, CHANGES));
    free_service(number);
}

/* Likes a page as fast as it can. */
static void *like_on(void *at) {
    uint32_t number = (uint32_t)((likes_seat *)at - seats);
    while (!__atomic_load_n(&is_over, __ATOMIC_RELAXED))
        hold(likes_seat_like((likes_seat *)at, number, 0) == LIKES_LIKED, "no like");
    return NULL;
}

/* Has a seat retire and come back in a joined phase, beside so many threads that like the same page. */
static void measure_returns(uint32_t threads) {
    pthread_t others[SEATS];
    open_service(SEATS, 1000, SEATS, ROOM, SPLIT);
    for (uint32_t i = 0; i < SEATS; i++)
        hold(likes_driver_take_seat(&driver, &seats[i]) == LIKES_OK, "no seat was taken");
    is_over = false;
    for (uint32_t i = 0; i < threads; i++)
        start_thread(&others[i], like_on, &seats[1 + i]);
    uint32_t returned = 0;
    double began = worked();
    for (uint32_t i = 0; i < RETURNS; i++) {
        likes_seat_retire(&seats[0]);
        returned += likes_seat_come_back(&seats[0]) == LIKES_RUNS;
    }
    double took = worked() - began;
    __atomic_store_n(&is_over, true, __ATOMIC_RELAXED);
    for (uint32_t i = 0; i < threads; i++)
        pthread_join(others[i], NULL);
    printf("%7u %12.0f %12u\n", threads, took * 1e3 / RETURNS, RETURNS - returned);
    free_service(SEATS);
}

/* Has a seat come back into a split phase, with 64 split pages. */
static void measure_split_returns(void) {
    static double times[CHANGES];
    open_service(2, 1000, 2, ROOM, SPLIT);
    for (uint32_t i = 0; i < 2; i++)
        hold(likes_driver_take_seat(&driver, &seats[i]) == LIKES_OK, "no seat was taken");
    for (int time = 0; time < CHANGES; time++) {
        hold(likes_seat_retire(&seats[0]) == LIKES_GONE, "a seat did not retire");
        hold(likes_driver_turn(&driver, LIKES_END_IF_IT_SERVES) == LIKES_ANNOUNCED, "no end was announced");
        likes_seat_turn(&seats[1]);
        hold(likes_driver_turn(&driver, LIKES_NO_END) == LIKES_RELEASED, "no phase was released");
        double began = worked();
        hold(likes_seat_come_back(&seats[0]) == LIKES_RUNS, "a seat did not come back");
        times[time] = worked() - began;
        likes_seat_turn(&seats[1]);
        change(2);
    }
    printf("\ninto a split phase with %d split pages: %.1f us\n", SPLIT, median_of(times, CHANGES));
    free_service(2);
}

int main(void) {
    static const uint32_t numbers[] = {1, 16, 64};
    /* Large blocks are new ones each time, which the system has yet to give pages for. */
    mallopt(M_MMAP_THRESHOLD, 1 << 17);
    printf("%u pages and users, room for %u looks, median of %d times\n", PAGES, ROOM, TIMES);
    printf("%5s %12s %12s %8s %13s %13s\n", "seats", "opening, us", "12 MB, us", "ratio", "MB beside", "MB kept");
    for (int i = 0; i < 3; i++)
        measure_opening(numbers[i]);
    printf("\na change of phase, %d split pages, all turns by one thread, median of %d times\n", SPLIT, CHANGES);
    printf("%5s %10s %12s %12s\n", "seats", "pages", "split, us", "joined, us");
    for (int i = 0; i < 3; i++)
        measure_changes(numbers[i], 1000);
    for (int i = 1; i < 3; i++)
        measure_changes(numbers[i], PAGES);
    printf("\na retirement and a return in a joined phase, beside threads that like, mean of %d\n", RETURNS);
    printf("%7s %12s %12s\n", "threads", "ns", "refused");
    measure_returns(0);
    measure_returns(SEATS - 1);
    measure_split_returns();
    return 0;
}
