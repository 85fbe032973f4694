/* The calls of library/core.c and seats.c, without the library: the proved calls below them are defined here, and see
 * what they are passed. An array of no entries must come as a pointer that isn't NULL, and everything else as it was.
 * Any other array that is NULL is refused, and no proved call is made.
 *
 * If something else is passed, it prints a line and exits with status 1. */
/* As the library's sources are compiled. */
#define _GNU_SOURCE
#include <stdlib.h>

/* In place of calloc in core.c, which gives this back: while `has_no_memory`, nothing is given. */
static int has_no_memory, zeroed, given_back;

static void *take_zeros(size_t number, size_t size) {
    zeroed += !has_no_memory;
    return has_no_memory ? NULL : calloc(number, size);
}

static void give_back(void *block) {
    given_back += block != NULL;
    free(block);
}

#define calloc take_zeros
#define free give_back
#include "../../library/core.c"
#undef calloc
#undef free

#include "../../library/seats.c"

#include "opening.h"

#include <stdio.h>

/* In place of what depends on the processors. */
enum { default_seats = 48 };

uint32_t likes_default_seats(void) {
    return default_seats;
}

#define HOLD(what)                                           \
    do {                                                     \
        if (!(what)) {                                       \
            printf("line %d: not %s\n", __LINE__, #what);    \
            exit(1);                                         \
        }                                                    \
    } while (0)

/* What the last call was passed, and how many there were. */
static struct {
    const void *first, *second, *third;
    likes_proved_options options;
    size_t first_len, second_len, third_len;
    uint32_t from;
    uint32_t mark, last; /* the first ones of an opening, if there are some */
    uint64_t sum;        /* of its counts */
    int calls;
} seen;

static void see_opening(const likes_proved_options *options, const uint64_t *counts, size_t pages,
                        const uint32_t *marks, size_t marks_len, const uint32_t *lasts, size_t lasts_len) {
    seen.calls += options != NULL;
    seen.first = counts;
    seen.first_len = pages;
    seen.second = marks;
    seen.second_len = marks_len;
    seen.third = lasts;
    seen.third_len = lasts_len;
    seen.mark = marks_len > 0 ? marks[0] : 0;
    seen.last = lasts_len > 0 ? lasts[0] : 0;
    seen.sum = 0;
    for (size_t page = 0; page < pages; page++)
        seen.sum += counts[page];
    seen.options = *options;
}

uint32_t likes_proved_open(const likes_proved_options *options, const uint64_t *counts, size_t pages,
                           const uint32_t *marks, size_t marks_len, const uint32_t *lasts, size_t lasts_len,
                           likes_driver *driver) {
    HOLD(driver != NULL);
    see_opening(options, counts, pages, marks, marks_len, lasts, lasts_len);
    return 41;
}

uint32_t likes_proved_shared_open(const likes_proved_options *options, const uint64_t *counts, size_t pages,
                                  const uint32_t *marks, size_t marks_len, const uint32_t *lasts, size_t lasts_len,
                                  likes_shared *shared) {
    HOLD(shared != NULL);
    see_opening(options, counts, pages, marks, marks_len, lasts, lasts_len);
    return LIKES_OK;
}

uint32_t likes_proved_seat_lasts(likes_seat *seat, uint32_t from, uint32_t *pages, size_t pages_len) {
    seen.calls += seat != NULL;
    seen.from = from;
    seen.first = pages;
    seen.first_len = pages_len;
    return 45;
}

size_t likes_proved_seat_run(likes_seat *seat, const likes_request *requests, size_t requests_len,
                              likes_answer *answers, size_t answers_len) {
    seen.calls += seat != NULL;
    seen.first = requests;
    seen.first_len = requests_len;
    seen.second = answers;
    seen.second_len = answers_len;
    return 42;
}

static uint32_t see_counts(const likes_driver *driver, uint32_t from, const uint64_t *counts, size_t counts_len) {
    seen.calls += driver != NULL;
    seen.from = from;
    seen.first = counts;
    seen.first_len = counts_len;
    return 43;
}

uint32_t likes_proved_driver_snapshot(likes_driver *driver, uint32_t from, uint64_t *counts, size_t counts_len) {
    return see_counts(driver, from, counts, counts_len);
}

uint32_t likes_proved_driver_last_counts(likes_driver *driver, uint32_t from, uint64_t *counts, size_t counts_len) {
    return see_counts(driver, from, counts, counts_len) + 1;
}

uint32_t likes_proved_close(likes_driver *driver, likes_seat *seats, size_t seats_len, uint64_t *counts,
                            size_t counts_len) {
    seen.calls += driver != NULL;
    seen.first = seats;
    seen.first_len = seats_len;
    seen.second = counts;
    seen.second_len = counts_len;
    return 48;
}

static void see_pages(const likes_driver *driver, const uint32_t *pages, size_t pages_len) {
    seen.calls += driver != NULL;
    seen.first = pages;
    seen.first_len = pages_len;
}

size_t likes_proved_driver_split_pages(likes_driver *driver, uint32_t *pages, size_t pages_len) {
    see_pages(driver, pages, pages_len);
    return 46;
}

uint32_t likes_proved_driver_propose(likes_driver *driver, const uint32_t *pages, size_t pages_len) {
    see_pages(driver, pages, pages_len);
    return 47;
}

void likes_proved_seat_free(likes_seat *seat) {
    seen.calls++;
    seen.first = seat;
}

void likes_proved_driver_free(likes_driver *driver) {
    seen.calls++;
    seen.first = driver;
}

void likes_proved_phase_free(likes_phase *phase) {
    seen.calls++;
    seen.first = phase;
}

/* What nobody calls here: no thread holds a seat, and no other call of a seat is made. */
#pragma GCC diagnostic push
#pragma GCC diagnostic ignored "-Wunused-parameter"
#define NOT_CALLED(type, name, ...) \
    type name(__VA_ARGS__) {        \
        abort();                    \
    }
_Thread_local inner_thread inner_mine;
NOT_CALLED(inner_member *, inner_member_find, likes_service *service)
NOT_CALLED(void, inner_attend, inner_member *member, inner_seat *seat)
NOT_CALLED(bool, inner_take_found, inner_member *member, inner_seat *seat, likes_found *found)
NOT_CALLED(uint32_t, inner_look, inner_member *member, inner_seat *seat, const likes_request *request,
           likes_answer *answer)
NOT_CALLED(size_t, inner_run, inner_member *member, inner_seat *seat, const likes_request *requests,
           size_t length, likes_answer *answers, bool waits)
NOT_CALLED(uint32_t, likes_client_like, likes_client *client, uint32_t seat, uint32_t user, uint32_t page)
NOT_CALLED(uint32_t, likes_client_glance, likes_client *client, uint32_t seat, uint32_t user, uint32_t page,
           likes_answer *answer)
NOT_CALLED(uint32_t, likes_client_last, likes_client *client, uint32_t seat, uint32_t user, uint32_t *page)
NOT_CALLED(uint32_t, likes_client_lasts, likes_client *client, uint32_t seat, uint32_t from, uint32_t *pages,
           size_t pages_len)
NOT_CALLED(uint32_t, likes_client_turn, likes_client *client, uint32_t seat)
NOT_CALLED(uint32_t, likes_client_retire, likes_client *client, uint32_t seat)
NOT_CALLED(uint32_t, likes_client_come_back, likes_client *client, uint32_t seat)
NOT_CALLED(uint32_t, likes_client_phase, likes_client *client, uint32_t seat, uint64_t *phase)
NOT_CALLED(uint32_t, likes_proved_seat_like, likes_seat *seat, uint32_t user, uint32_t page)
NOT_CALLED(uint32_t, likes_proved_seat_look, likes_seat *seat, uint32_t user, uint32_t page, uint64_t tag,
           likes_answer *answer)
NOT_CALLED(uint32_t, likes_proved_seat_glance, likes_seat *seat, uint32_t user, uint32_t page, likes_answer *answer)
NOT_CALLED(uint32_t, likes_proved_seat_last, likes_seat *seat, uint32_t user, uint32_t *page)
NOT_CALLED(uint32_t, likes_proved_seat_turn, likes_seat *seat)
NOT_CALLED(uint32_t, likes_proved_seat_retire, likes_seat *seat)
NOT_CALLED(uint32_t, likes_proved_seat_come_back, likes_seat *seat)
NOT_CALLED(uint64_t, likes_proved_seat_phase, likes_seat *seat)
NOT_CALLED(bool, likes_proved_seat_take_found, likes_seat *seat, likes_found *found)
#pragma GCC diagnostic pop

/* Whether the arrays have come as they are, and those of no entries as something else than NULL. */
static bool has_passed(const void *first, size_t first_len, const void *second, size_t second_len) {
    bool is_first = first_len == 0 ? seen.first != NULL : seen.first == first;
    bool is_second = second_len == 0 ? seen.second != NULL : seen.second == second;
    return is_first && is_second && seen.first_len == first_len && seen.second_len == second_len;
}

static bool has_numbers(uint32_t seats, uint32_t users, uint32_t room, uint32_t hot) {
    const likes_proved_options *it = &seen.options;
    return it->seats == seats && it->users == users && it->room == room && it->hot == hot;
}

/* What is left out of the options has its default, and other numbers come as they are, right or wrong. */
static void has_defaults(void) {
    static const uint64_t counts[] = {1};
    likes_driver driver = {0};
    likes_options options = {.counts = counts, .pages = 1};
    HOLD(likes_open(&options, &driver) == 41 && has_numbers(default_seats, 0, 64, 512));
    options = (likes_options){.users = 3, .seats = 1, .room = 5, .hot = LIKES_NO_HOT, .pages = 9};
    HOLD(likes_open(&options, &driver) == 41 && has_numbers(1, 3, 5, 0) && seen.first_len == 9);
    options = (likes_options){.seats = 65, .room = 4097, .hot = LIKES_NO_HOT - 1};
    HOLD(likes_open(&options, &driver) == 41 && has_numbers(65, 0, 4097, LIKES_NO_HOT - 1));
    options = (likes_options){.hot = 1, .reserved = 2, .reserved_too = {3, 4, 5, 6, 7}};
    HOLD(likes_open(&options, &driver) == 41 && has_numbers(default_seats, 0, 64, 1));
    for (uint64_t i = 0; i < 6; i++)
        HOLD(seen.options.reserved[i] == i + 2);
}

/* A shared service is opened as any other, and its handle has the number of its seats. */
static void opens_shared(void) {
    likes_shared shared = {0};
    likes_options options = {.pages = 2, .users = 3};
    HOLD(likes_shared_open(&options, &shared) == LIKES_OK && has_numbers(default_seats, 3, 64, 512));
    HOLD(seen.first_len == 2 && seen.sum == 0 && shared.seats == default_seats);
    HOLD(likes_shared_open(NULL, &shared) == LIKES_NULL && likes_shared_open(&options, NULL) == LIKES_NULL);
}

/* Counts that are NULL are zeros, for which memory is zeroed unless there are no or too many pages. */
static void has_zeros(void) {
    likes_driver driver = {0};
    likes_options options = {.pages = 1000, .users = 1};
    zeroed = given_back = 0;
    HOLD(likes_open(&options, &driver) == 41 && seen.first_len == 1000 && seen.sum == 0);
    options.pages = LIKES_MAX_PAGES;
    HOLD(likes_open(&options, &driver) == 41 && seen.first_len == LIKES_MAX_PAGES && seen.sum == 0);
    HOLD(zeroed == 2 && given_back == 2);
    for (int n = 0; n < 3; n++) {
        options.pages = n == 0 ? 0 : n == 1 ? LIKES_MAX_PAGES + 1 : SIZE_MAX;
        HOLD(likes_open(&options, &driver) == 41 && seen.first != NULL && seen.first_len == 0);
    }
    HOLD(zeroed == 2 && given_back == 2);
    int calls = seen.calls;
    options.pages = 1;
    has_no_memory = 1;
    HOLD(likes_open(&options, &driver) == LIKES_NO_MEMORY && seen.calls == calls);
    has_no_memory = 0;
}

/* An array without a length, or a length without an array, is passed on as a page that no service has. */
static void has_wrong_lists(void) {
    static const uint32_t pages[] = {0, 1};
    static const uint64_t counts[] = {1};
    likes_driver driver = {0};
    likes_options wrong[] = {{.marks = pages}, {.marks_len = 2}, {.lasts = pages}, {.lasts_len = 1}};
    for (size_t n = 0; n < 4; n++) {
        wrong[n].counts = counts;
        wrong[n].pages = 1;
        wrong[n].users = 1;
        HOLD(likes_open(&wrong[n], &driver) == 41);
        HOLD(n < 2 ? seen.second_len == 1 && seen.mark == UINT32_MAX - 1 : seen.second_len == 0);
        HOLD(n < 2 ? seen.third_len == 0 : seen.third_len == 1 && seen.last == UINT32_MAX - 1);
    }
}

/* What else is NULL is refused, and no proved call is made. */
static void refuses(void) {
    likes_options options = {.pages = 1, .users = 1};
    likes_driver driver = {0};
    likes_seat seat = {0};
    likes_request request = {0};
    likes_answer answer = {.count = 9, .status = 9};
    int calls = seen.calls;
    HOLD(likes_open(NULL, &driver) == LIKES_NULL && likes_open(&options, NULL) == LIKES_NULL);
    HOLD(likes_driver_seats(NULL) == 0);
    HOLD(likes_seat_lasts(&seat, 0, NULL, 1) == LIKES_NULL);
    HOLD(likes_driver_snapshot(&driver, 0, NULL, 1) == LIKES_NULL);
    HOLD(likes_driver_last_counts(&driver, 0, NULL, 1) == LIKES_NULL);
    HOLD(likes_close(&driver, NULL, 1, NULL, 0) == LIKES_NULL && likes_close(&driver, &seat, 1, NULL, 1) == LIKES_NULL);
    HOLD(likes_driver_propose(&driver, NULL, 1) == LIKES_NULL);
    HOLD(likes_driver_split_pages(&driver, NULL, 1) == 0);
    HOLD(likes_seat_run(&seat, &request, 1, NULL, 1) == 0 && likes_seat_run(&seat, NULL, 1, NULL, 1) == 0);
    HOLD(likes_seat_run(&seat, NULL, 1, NULL, 0) == 0 && answer.status == 9);
    HOLD(likes_seat_run(&seat, NULL, 1, &answer, 1) == 0 && answer.status == LIKES_NULL && answer.count == 0);
    HOLD(seen.calls == calls);
}

int main(void) {
    likes_options options = {0};
    likes_driver driver = {0};
    likes_seat seat = {0};
    likes_phase phase = {0};
    likes_request requests[5] = {{0}};
    likes_answer answers[4];
    uint64_t counts[3] = {0};
    uint32_t marks[2] = {0}, lasts[6] = {0};
    for (size_t n = 0; n < 8; n++) {
        bool first = n & 1, second = n & 2, third = n & 4;
        HOLD(open_core(options, first ? counts : NULL, 3 * first, second ? marks : NULL, 2 * second,
                        third ? lasts : NULL, 6 * third, &driver) == 41);
        HOLD(has_passed(counts, 3 * first, marks, 2 * second));
        HOLD((third ? seen.third == lasts : seen.third != NULL) && seen.third_len == (size_t)6 * third);
        HOLD(likes_seat_run(&seat, first ? requests : NULL, 5 * first, second ? answers : NULL, 4 * second) == 42);
        HOLD(has_passed(requests, 5 * first, answers, 4 * second));
        HOLD(likes_driver_snapshot(&driver, 7, first ? counts : NULL, 3 * first) == 43);
        HOLD(has_passed(counts, 3 * first, answers, 4 * second) && seen.from == 7);
        HOLD(likes_driver_last_counts(&driver, 8, first ? counts : NULL, 3 * first) == 44);
        HOLD(has_passed(counts, 3 * first, answers, 4 * second) && seen.from == 8);
        HOLD(likes_seat_lasts(&seat, 9, first ? lasts : NULL, 6 * first) == 45);
        HOLD(has_passed(lasts, 6 * first, answers, 4 * second) && seen.from == 9);
        HOLD(likes_driver_split_pages(&driver, first ? lasts : NULL, 6 * first) == 46);
        HOLD(has_passed(lasts, 6 * first, answers, 4 * second));
        HOLD(likes_driver_propose(&driver, first ? marks : NULL, 2 * first) == 47);
        HOLD(has_passed(marks, 2 * first, answers, 4 * second));
        HOLD(likes_close(&driver, first ? &seat : NULL, first, second ? counts : NULL, 3 * second) == 48);
        HOLD(has_passed(&seat, first, counts, 3 * second));
    }
    HOLD(seen.calls == 64);
    HOLD(driver.seats == 0); /* nothing was opened */
    has_defaults();
    opens_shared();
    has_zeros();
    has_wrong_lists();
    refuses();
    HOLD(seen.calls == 78);
    likes_seat_free(NULL);
    likes_driver_free(NULL);
    likes_phase_free(NULL);
    HOLD(seen.calls == 78);
    likes_seat_free(&seat);
    HOLD(seen.first == &seat);
    likes_driver_free(&driver);
    HOLD(seen.first == &driver);
    likes_phase_free(&phase);
    HOLD(seen.first == &phase && seen.calls == 81);
    HOLD(likes_seat_of(7, 3) == 1 && likes_seat_of(UINT32_MAX, 16) == 15);
    puts("all passed on as it should be");
    return 0;
}
