/* The calls of likes.h that have defaults or take NULL, over the proved ones, which don't. Those of a seat are in
 * seats.c, and those of a client in clients.c. All others are the proved ones themselves. */
#include "defaults.h"
#include "missing.h"
#include "proved.h"

#include <errno.h>
#include <stdlib.h>

static const uint64_t no_count;
static const uint32_t no_page, wrong_page = LIKES_NO_PAGE - 1;

/* The numbers for the proved call, with defaults. There `hot` 0 means that no page gets hot by itself. */
static likes_proved_options numbers_of(const likes_options *options) {
    likes_proved_options made = {options->seats, options->users, options->room, options->hot, {options->reserved}};
    if (made.seats == 0)
        made.seats = likes_default_seats();
    if (made.room == 0)
        made.room = LIKES_DEFAULT_ROOM;
    if (made.hot == 0)
        made.hot = LIKES_DEFAULT_HOT;
    else if (made.hot == LIKES_NO_HOT)
        made.hot = 0;
    for (size_t i = 0; i < 5; i++)
        made.reserved[i + 1] = options->reserved_too[i];
    return made;
}

/* Pages for the proved call. */
typedef struct page_list {
    const uint32_t *at;
    size_t length;
} page_list;

/* An array without a length, or a length without an array, goes on as one page that no service has: so it is refused as
 * any other wrong list is, in the order of faults. */
static page_list list_of(const uint32_t *pages, size_t length) {
    page_list list = {pages, length};
    if ((pages == NULL) != (length == 0)) {
        list.at = &wrong_page;
        list.length = 1;
    } else if (length == 0) {
        list.at = &no_page;
    }
    return list;
}

/* What is opened: a driver or a shared service. The other is NULL. */
typedef struct to_open {
    likes_driver *driver;
    likes_shared *shared;
} to_open;

/* Opens with counts of so many pages, which aren't NULL. */
static uint32_t open_with(const likes_options *options, const uint64_t *counts, size_t pages, to_open it) {
    likes_proved_options numbers = numbers_of(options);
    page_list marks = list_of(options->marks, options->marks_len), lasts = list_of(options->lasts, options->lasts_len);
    uint32_t status;
    if (it.shared != NULL)
        status = likes_proved_shared_open(&numbers, counts, pages, marks.at, marks.length, lasts.at, lasts.length,
                                          it.shared);
    else
        status = likes_proved_open(&numbers, counts, pages, marks.at, marks.length, lasts.at, lasts.length, it.driver);
    if (status == LIKES_OK)
        *(it.shared != NULL ? &it.shared->seats : &it.driver->seats) = numbers.seats;
    return status;
}

/* Opens with counts of 0, for which it takes memory meanwhile, unless their number is wrong. */
static uint32_t open_with_zeros(const likes_options *options, to_open it) {
    size_t pages = options->pages;
    if (pages == 0 || pages > LIKES_MAX_PAGES)
        return open_with(options, &no_count, 0, it);
    uint64_t *zeros = (uint64_t *)calloc(pages, sizeof *zeros);
    if (zeros == NULL)
        return LIKES_NO_MEMORY;
    uint32_t status = open_with(options, zeros, pages, it);
    free(zeros);
    return status;
}

/* Opens, and leaves errno as it was. */
static uint32_t open_it(const likes_options *options, to_open it) {
    int error = errno;
    uint32_t status;
    if (options->counts == NULL)
        status = open_with_zeros(options, it);
    else
        status = open_with(options, options->counts, options->pages, it);
    errno = error;
    return status;
}

uint32_t likes_open(const likes_options *options, likes_driver *driver) {
    if (options == NULL || driver == NULL)
        return LIKES_NULL;
    return open_it(options, (to_open){.driver = driver});
}

uint32_t likes_shared_open(const likes_options *options, likes_shared *shared) {
    if (options == NULL || shared == NULL)
        return LIKES_NULL;
    return open_it(options, (to_open){.shared = shared});
}

uint32_t likes_driver_seats(const likes_driver *driver) {
    return driver != NULL ? (uint32_t)driver->seats : 0;
}

uint32_t likes_seat_of(uint32_t user, uint32_t seats) {
    return user % seats;
}

uint32_t likes_driver_snapshot(likes_driver *driver, uint32_t from, uint64_t *counts, size_t counts_len) {
    uint64_t count;
    if (likes_is_missing(counts, counts_len))
        return LIKES_NULL;
    return likes_proved_driver_snapshot(driver, from, counts_len == 0 ? &count : counts, counts_len);
}

size_t likes_driver_split_pages(likes_driver *driver, uint32_t *pages, size_t pages_len) {
    uint32_t page;
    if (likes_is_missing(pages, pages_len))
        return 0;
    return likes_proved_driver_split_pages(driver, pages_len == 0 ? &page : pages, pages_len);
}

uint32_t likes_driver_propose(likes_driver *driver, const uint32_t *pages, size_t pages_len) {
    if (likes_is_missing(pages, pages_len))
        return LIKES_NULL;
    return likes_proved_driver_propose(driver, pages_len == 0 ? &no_page : pages, pages_len);
}

uint32_t likes_driver_last_counts(likes_driver *driver, uint32_t from, uint64_t *counts, size_t counts_len) {
    uint64_t count;
    if (likes_is_missing(counts, counts_len))
        return LIKES_NULL;
    return likes_proved_driver_last_counts(driver, from, counts_len == 0 ? &count : counts, counts_len);
}

uint32_t likes_close(likes_driver *driver, likes_seat *seats, size_t seats_len, uint64_t *counts, size_t counts_len) {
    likes_seat seat = {NULL};
    uint64_t count;
    if (likes_is_missing(seats, seats_len) || likes_is_missing(counts, counts_len))
        return LIKES_NULL;
    uint32_t status = likes_proved_close(driver, seats_len == 0 ? &seat : seats, seats_len,
                                         counts_len == 0 ? &count : counts, counts_len);
    if (status == LIKES_COUNTED)
        driver->seats = 0;
    return status;
}

void likes_driver_free(likes_driver *driver) {
    if (driver == NULL)
        return;
    likes_proved_driver_free(driver);
    driver->seats = 0;
}

void likes_phase_free(likes_phase *phase) {
    if (phase != NULL)
        likes_proved_phase_free(phase);
}
