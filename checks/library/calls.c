/* Makes every call of likes.h on one thread, with right and wrong numbers, and compares each answer. No call may write
 * a handle, except those that fill or free it.
 *
 * At the first wrong answer it prints a line and exits with status 1. checks/library/live builds and runs it. With a
 * number as its argument it also makes that many million calls, and requires that memory stays as it was. */
#include "harness.h"

#include <malloc.h>
#include <signal.h>
#include <sys/mman.h>
#include <unistd.h>

/* A count that was not written. */
#define UNWRITTEN UINT64_C(0xa5a5a5a5a5a5a5a5)

/* A service: its handles, side by side, and their bytes as they were once all were filled. */
typedef struct {
    likes_driver driver;
    likes_seat seats[LIKES_MAX_SEATS];
    likes_phase phase;
    unsigned char filled[sizeof(likes_driver) + LIKES_MAX_SEATS * sizeof(likes_seat) + sizeof(likes_phase)];
} opened;

static opened open_service(likes_options options, const uint64_t *counts, size_t pages, const uint32_t *marks,
                           size_t marks_len) {
    opened it = {0};
    IS(open_core(options, counts, pages, marks, marks_len, NULL, 0, &it.driver), LIKES_OK);
    for (uint32_t i = 0; i < options.seats; i++)
        IS(likes_driver_take_seat(&it.driver, &it.seats[i]), LIKES_OK);
    IS(likes_driver_take_phase(&it.driver, &it.phase), LIKES_OK);
    memcpy(it.filled, &it, sizeof it.filled);
    return it;
}

static void change_phase(opened *it, uint32_t seats) {
    IS(likes_driver_turn(&it->driver, LIKES_END_IF_IT_SERVES), LIKES_ANNOUNCED);
    for (uint32_t i = 0; i < seats; i++)
        IS(likes_seat_turn(&it->seats[i]), LIKES_BETWEEN);
    IS(likes_driver_turn(&it->driver, LIKES_NO_END), LIKES_RELEASED);
}

/* Frees a service, whose handles nothing has written. */
static void free_service(opened *it) {
    static const unsigned char empty[sizeof it->filled];
    IS(memcmp(it, it->filled, sizeof it->filled), 0);
    for (uint32_t i = 0; i < LIKES_MAX_SEATS; i++)
        likes_seat_free(&it->seats[i]);
    likes_driver_free(&it->driver);
    likes_phase_free(&it->phase);
    IS(memcmp(it, empty, sizeof it->filled), 0);
}

/* One seat and one page, from the first like to the last count. */
static void plain(void) {
    const uint64_t counts[] = {10};
    uint64_t last[1];
    likes_answer answer;
    likes_driver driver = {0};
    likes_seat seat = {0};
    likes_options options = {.seats = 1, .users = 2, .room = 1, .hot = 0};
    IS(open_core(options, counts, 1, NULL, 0, NULL, 0, &driver), LIKES_OK);
    IS(likes_driver_take_seat(&driver, &seat), LIKES_OK);
    for (uint32_t i = 0; i < 3; i++)
        IS(likes_seat_like(&seat, i % 2, 0), LIKES_LIKED);
    IS(likes_seat_look(&seat, 0, 0, 5, &answer), LIKES_SEEN);
    IS(answer.status, LIKES_SEEN);
    IS(answer.last, 0);
    IS(answer.count, 13);
    IS(likes_driver_last_counts(&driver, 0, last, 1), LIKES_NOT_ENDED);
    IS(likes_seat_retire(&seat), LIKES_GONE);
    IS(likes_driver_turn(&driver, LIKES_END_IF_IT_SERVES), LIKES_ENDED);
    IS(likes_driver_last_counts(&driver, 0, last, 1), LIKES_COUNTED);
    IS(last[0], 13);
    IS(driver.at != NULL, true);
    likes_seat_free(&seat);
    likes_driver_free(&driver);
    IS(driver.at == NULL, true);
}

/* Two seats and two pages, the first of them marked: three phases, step by step. */
static void two_seats(void) {
    const uint64_t counts[] = {10, 0};
    const uint32_t marks[] = {0};
    likes_answer answer;
    likes_found found;
    opened it = open_service((likes_options){.seats = 2, .users = 4, .room = 4, .hot = 0}, counts, 2, marks, 1);
    IS(likes_seat_like(&it.seats[0], 0, 0), LIKES_LIKED);
    IS(likes_seat_look(&it.seats[0], 0, 0, 1, &answer), LIKES_SEEN);
    IS(answer.count, 11);
    change_phase(&it, 2);
    IS(likes_seat_like(&it.seats[0], 0, 0), LIKES_LIKED);
    IS(likes_seat_like(&it.seats[0], 2, 0), LIKES_LIKED);
    IS(likes_seat_like(&it.seats[1], 1, 0), LIKES_LIKED);
    IS(likes_seat_look(&it.seats[0], 0, 0, 7, &answer), LIKES_WAITS);
    IS(answer.status, LIKES_WAITS);
    IS(likes_seat_glance(&it.seats[0], 0, 0, &answer), LIKES_GLIMPSED);
    IS(answer.count, 13);
    IS(likes_seat_glance(&it.seats[0], 0, 1, &answer), LIKES_SEEN);
    IS(answer.count, 0);
    IS(likes_seat_glance(&it.seats[1], 3, 0, &answer), LIKES_GLIMPSED);
    IS(answer.count, 12);
    IS(answer.last, LIKES_NO_PAGE);
    IS(likes_seat_look(&it.seats[0], 0, 1, 8, &answer), LIKES_SEEN);
    IS(answer.count, 0);
    IS(likes_seat_phase(&it.seats[0]), 1);
    IS(likes_seat_take_found(&it.seats[0], &found), false);
    change_phase(&it, 2);
    IS(likes_driver_phase(&it.driver), 2);
    IS(likes_seat_like(&it.seats[0], 0, 1), LIKES_LIKED);
    IS(likes_seat_take_found(&it.seats[0], &found), true);
    IS(found.tag, 7);
    IS(found.count, 14);
    IS(found.asked, 1);
    IS(found.ran, 2);
    IS(found.user, 0);
    IS(found.page, 0);
    IS(found.last, 0);
    IS(likes_seat_take_found(&it.seats[0], &found), false);
    free_service(&it);
}

/* Which pages are split: as many as are told, in any order, and no others. Less room has the first of them. */
static void is_split(likes_driver *driver, const uint32_t *pages, size_t pages_len) {
    uint32_t told[LIKES_MAX_SPLIT + 1], few[LIKES_MAX_SPLIT + 1];
    memset(told, 0xa5, sizeof told);
    IS(likes_driver_split_pages(driver, told, LIKES_MAX_SPLIT + 1), pages_len);
    IS(told[pages_len], UINT32_C(0xa5a5a5a5));
    for (size_t n = 0; n < pages_len; n++) {
        int times = 0;
        for (size_t i = 0; i < pages_len; i++)
            times += told[i] == pages[n];
        IS(times, 1);
    }
    for (size_t room = 0; room <= pages_len; room++) {
        memset(few, 0xa5, sizeof few);
        IS(likes_driver_split_pages(driver, few, room), room);
        IS(memcmp(few, told, room * sizeof *few), 0);
        IS(few[room], UINT32_C(0xa5a5a5a5));
    }
    IS(likes_driver_split_pages(driver, NULL, 0), 0);
}

/* A million pages, of which the last is marked: a split phase, and all counts after it. */
static void slots(void) {
    enum { PAGES = 1000000, LAST = PAGES - 1 };
    static const uint64_t counts[PAGES];
    static uint64_t last[PAGES];
    const uint32_t marks[] = {LAST};
    likes_answer answer;
    opened it = open_service((likes_options){.seats = 2, .users = 2, .room = 1}, counts, PAGES, marks, 1);
    is_split(&it.driver, marks, 1);
    change_phase(&it, 2);
    is_split(&it.driver, marks, 1);
    IS(likes_seat_like(&it.seats[0], 0, LAST), LIKES_LIKED);
    IS(likes_seat_like(&it.seats[0], 0, LAST), LIKES_LIKED);
    IS(likes_seat_like(&it.seats[1], 1, LAST), LIKES_LIKED);
    IS(likes_seat_like(&it.seats[0], 0, 5), LIKES_LIKED);
    IS(likes_seat_like(&it.seats[1], 1, 5), LIKES_LIKED);
    IS(likes_seat_look(&it.seats[0], 0, 5, 0, &answer), LIKES_SEEN);
    IS(answer.count, 2);
    IS(likes_seat_glance(&it.seats[0], 0, LAST, &answer), LIKES_GLIMPSED);
    IS(answer.count, 2);
    IS(likes_seat_glance(&it.seats[1], 1, LAST, &answer), LIKES_GLIMPSED);
    IS(answer.count, 1);
    change_phase(&it, 2);
    IS(likes_seat_look(&it.seats[1], 1, LAST, 0, &answer), LIKES_SEEN);
    IS(answer.count, 3);
    IS(likes_seat_retire(&it.seats[0]), LIKES_GONE);
    IS(likes_seat_retire(&it.seats[1]), LIKES_GONE);
    IS(likes_driver_last_counts(&it.driver, 0, last, PAGES), LIKES_COUNTED);
    for (uint32_t page = 0; page < PAGES; page++)
        IS(last[page], page == LAST ? 3 : page == 5 ? 2 : 0);
    free_service(&it);
}

/* Page 7 has the slot in phase 1, and page 8 in phase 3: likes of both in both phases. */
static void moves(void) {
    enum { PAGES = 10 };
    static const uint64_t counts[PAGES];
    const uint32_t in_slot[] = {7, 8};
    uint64_t last[PAGES];
    likes_answer answer;
    likes_found found;
    opened it = open_service((likes_options){.seats = 2, .users = 2, .room = 2}, counts, PAGES, NULL, 0);
    IS(likes_driver_turn(&it.driver, LIKES_END_IF_IT_SERVES), LIKES_GOES_ON);
    is_split(&it.driver, in_slot, 0);
    IS(likes_driver_propose(&it.driver, &in_slot[0], 1), LIKES_OK);
    for (uint32_t round = 0; round < 2; round++) {
        const uint32_t *split = &in_slot[round], *joined = &in_slot[1 - round];
        change_phase(&it, 2);
        is_split(&it.driver, split, 1);
        IS(likes_driver_propose(&it.driver, &in_slot[1], 1), LIKES_OK);
        is_split(&it.driver, split, 1);
        for (uint32_t i = 0; i < 2; i++) {
            IS(likes_seat_like(&it.seats[i], i, 7), LIKES_LIKED);
            IS(likes_seat_like(&it.seats[i], i, 8), LIKES_LIKED);
            IS(likes_seat_look(&it.seats[i], i, *joined, 0, &answer), LIKES_SEEN);
            IS(answer.count, 2 * round + i + 1);
            IS(likes_seat_look(&it.seats[i], i, *split, 5, &answer), LIKES_WAITS);
            IS(likes_seat_glance(&it.seats[i], i, *split, &answer), LIKES_GLIMPSED);
            IS(answer.count, 2 * round + 1);
            IS(likes_seat_glance(&it.seats[i], i, *joined, &answer), LIKES_SEEN);
            IS(answer.count, 2 * round + i + 1);
        }
        change_phase(&it, 2);
        is_split(&it.driver, split, 1);
        for (uint32_t i = 0; i < 2; i++) {
            IS(likes_seat_turn(&it.seats[i]), LIKES_RUNS);
            IS(likes_seat_take_found(&it.seats[i], &found), true);
            IS(found.page, *split);
            IS(found.count, 2 * round + 2);
        }
    }
    for (uint32_t i = 0; i < 2; i++)
        IS(likes_seat_retire(&it.seats[i]), LIKES_GONE);
    IS(likes_driver_last_counts(&it.driver, 0, last, PAGES), LIKES_COUNTED);
    for (uint32_t page = 0; page < PAGES; page++)
        IS(last[page], page == 7 || page == 8 ? 4 : 0);
    free_service(&it);
}

/* What is proposed: when a turn takes it, how many pages, and which numbers do nothing. */
static void proposals(void) {
    enum { PAGES = 100 };
    static const uint64_t counts[PAGES];
    const uint32_t marks[] = {50}, far[] = {PAGES, UINT32_MAX}, mixed[] = {PAGES, 3, 3, 50, UINT32_MAX},
                   both[] = {50, 3}, other[] = {4}, late[] = {50, 4};
    uint32_t all[LIKES_MAX_SPLIT + 1];
    opened it = open_service((likes_options){.seats = 1, .users = 1, .room = 1}, counts, PAGES, NULL, 0);
    /* Without a page that is one, nothing is split. A phase that ends in any case has none then. */
    IS(likes_driver_propose(&it.driver, far, 2), LIKES_OK);
    IS(likes_driver_turn(&it.driver, LIKES_END_IF_IT_SERVES), LIKES_GOES_ON);
    IS(likes_driver_turn(&it.driver, LIKES_END), LIKES_ANNOUNCED);
    IS(likes_driver_propose(&it.driver, other, 1), LIKES_OK);
    IS(likes_seat_turn(&it.seats[0]), LIKES_BETWEEN);
    IS(likes_driver_turn(&it.driver, LIKES_END), LIKES_RELEASED);
    is_split(&it.driver, marks, 0);
    /* A split phase's end takes what is proposed, until the next one's. A turn that can't end a phase takes nothing. */
    change_phase(&it, 1);
    IS(likes_driver_propose(&it.driver, mixed, 5), LIKES_OK);
    change_phase(&it, 1);
    is_split(&it.driver, other, 1);
    IS(likes_driver_propose(&it.driver, NULL, 0), LIKES_OK);
    IS(likes_driver_turn(&it.driver, LIKES_NO_END), LIKES_GOES_ON);
    change_phase(&it, 1);
    is_split(&it.driver, other, 1);
    IS(likes_driver_turn(&it.driver, LIKES_END_IF_IT_SERVES), LIKES_GOES_ON);
    IS(likes_driver_propose(&it.driver, other, 1), LIKES_OK);
    IS(likes_driver_turn(&it.driver, LIKES_NO_END), LIKES_GOES_ON);
    change_phase(&it, 1);
    is_split(&it.driver, other, 1);
    free_service(&it);
    /* A marked page is split from the first on, and what is proposed beside it from the second. */
    it = open_service((likes_options){.seats = 1, .users = 1, .room = 1}, counts, PAGES, marks, 1);
    IS(likes_driver_propose(&it.driver, mixed, 5), LIKES_OK);
    change_phase(&it, 1);
    is_split(&it.driver, marks, 1);
    change_phase(&it, 1);
    IS(likes_driver_propose(&it.driver, other, 1), LIKES_OK);
    change_phase(&it, 1);
    if (likes_driver_split_pages(&it.driver, all, 2) == 2)
        is_split(&it.driver, both, 2);
    else
        is_split(&it.driver, marks, 1); /* the two share a bucket */
    change_phase(&it, 1);
    change_phase(&it, 1);
    if (likes_driver_split_pages(&it.driver, all, 2) == 2)
        is_split(&it.driver, late, 2);
    else
        is_split(&it.driver, marks, 1);
    free_service(&it);
}

/* Of a longer array the first 64 are proposed: the 65th isn't split, even where it alone is a page. */
static void many_proposed(void) {
    static const uint64_t counts[1000];
    uint32_t all[LIKES_MAX_SPLIT + 1], told[LIKES_MAX_SPLIT + 1];
    size_t most = 0;
    opened it = open_service((likes_options){.seats = 1, .users = 1, .room = 1}, counts, 1000, NULL, 0);
    memset(all, 0xff, sizeof all);
    all[LIKES_MAX_SPLIT] = 0;
    IS(likes_driver_propose(&it.driver, all, LIKES_MAX_SPLIT + 1), LIKES_OK);
    IS(likes_driver_turn(&it.driver, LIKES_END_IF_IT_SERVES), LIKES_GOES_ON);
    all[LIKES_MAX_SPLIT - 1] = 0;
    IS(likes_driver_propose(&it.driver, all, LIKES_MAX_SPLIT + 1), LIKES_OK);
    change_phase(&it, 1);
    is_split(&it.driver, all + LIKES_MAX_SPLIT, 1);
    for (uint32_t n = 0; n <= LIKES_MAX_SPLIT; n++)
        all[n] = 11 * n;
    IS(likes_driver_propose(&it.driver, all, LIKES_MAX_SPLIT + 1), LIKES_OK);
    change_phase(&it, 1);
    change_phase(&it, 1);
    most = likes_driver_split_pages(&it.driver, told, LIKES_MAX_SPLIT + 1);
    IS(0 < most && most <= LIKES_MAX_SPLIT, true);
    for (size_t n = 0; n < most; n++)
        IS(told[n] % 11 == 0 && told[n] < 11 * LIKES_MAX_SPLIT, true);
    is_split(&it.driver, told, most);
    free_service(&it);
}

enum { MILLION = 1000000, HOT = 777777, LIKES = 20000, CHOICES = 40 };

static opened open_million(uint32_t hot) {
    static const uint64_t counts[MILLION];
    return open_service((likes_options){.seats = 2, .users = 2, .room = 1, .hot = hot}, counts, MILLION, NULL, 0);
}

/* Makes likes of one page, or of pages that are drawn, and a turn that may end the phase, until one does: at most as
 * many times as choices. Gives the turn's answer. */
static uint32_t like_until_end(opened *it, bool is_one) {
    uint32_t turn = LIKES_GOES_ON;
    uint64_t random = 1;
    for (int choice = 0; choice < CHOICES && turn == LIKES_GOES_ON; choice++) {
        for (uint32_t i = 0; i < LIKES; i++) {
            random = random * UINT64_C(6364136223846793005) + 1442695040888963407u;
            uint32_t page = is_one ? HOT : (uint32_t)(random >> 33) % MILLION;
            IS(likes_seat_like(&it->seats[i % 2], i % 2, page), LIKES_LIKED);
        }
        turn = likes_driver_turn(&it->driver, LIKES_END_IF_IT_SERVES);
    }
    return turn;
}

/* A page with many likes is found and split, and a phase ends by itself for that. It isn't where pages are alike, none
 * may get hot, or others are proposed. */
static void hot_pages(void) {
    const uint32_t right[] = {HOT}, other[] = {3};
    for (uint32_t is_proposed = 0; is_proposed < 2; is_proposed++) {
        opened it = open_million(512);
        IS(like_until_end(&it, false), LIKES_GOES_ON);
        IS(likes_driver_propose(&it.driver, other, is_proposed), LIKES_OK);
        IS(like_until_end(&it, true), LIKES_ANNOUNCED);
        for (uint32_t i = 0; i < 2; i++)
            IS(likes_seat_turn(&it.seats[i]), LIKES_BETWEEN);
        IS(likes_driver_turn(&it.driver, LIKES_NO_END), LIKES_RELEASED);
        is_split(&it.driver, is_proposed ? other : right, 1);
        free_service(&it);
    }
    opened it = open_million(0);
    IS(like_until_end(&it, true), LIKES_GOES_ON);
    free_service(&it);
}

/* Room for two looks: what has no room, and when there is room again. */
static void room(void) {
    const uint64_t counts[] = {10};
    const uint32_t marks[] = {0};
    likes_answer answer;
    likes_found found;
    opened it = open_service((likes_options){.seats = 1, .users = 1, .room = 2, .hot = 0}, counts, 1, marks, 1);
    change_phase(&it, 1);
    IS(likes_seat_look(&it.seats[0], 0, 0, 1, &answer), LIKES_WAITS);
    IS(likes_seat_look(&it.seats[0], 0, 0, 2, &answer), LIKES_WAITS);
    IS(likes_seat_look(&it.seats[0], 0, 0, 3, &answer), LIKES_NO_ROOM);
    change_phase(&it, 1);
    IS(likes_seat_turn(&it.seats[0]), LIKES_RUNS);
    IS(likes_seat_look(&it.seats[0], 0, 0, 3, &answer), LIKES_SEEN);
    change_phase(&it, 1);
    IS(likes_seat_turn(&it.seats[0]), LIKES_RUNS);
    IS(likes_seat_look(&it.seats[0], 0, 0, 3, &answer), LIKES_NO_ROOM);
    IS(likes_seat_take_found(&it.seats[0], &found), true);
    IS(found.tag, 1);
    IS(likes_seat_look(&it.seats[0], 0, 0, 3, &answer), LIKES_WAITS);
    IS(likes_seat_take_found(&it.seats[0], &found), true);
    IS(found.tag, 2);
    IS(likes_seat_take_found(&it.seats[0], &found), false);
    free_service(&it);
}

/* Openings with one wrong number. */
static void openings(void) {
    static uint64_t counts[LIKES_MAX_PAGES + 1];
    likes_driver driver = {0};
    likes_options right = {.seats = LIKES_MAX_SEATS, .users = 1, .room = 4096, .hot = 1000000}, wrong_one;
#define REFUSED(field, value, status)                                   \
    wrong_one = right;                                                  \
    wrong_one.field = (value);                                          \
    IS(open_core(wrong_one, counts, 1, NULL, 0, NULL, 0, &driver), status);    \
    IS(driver.at == NULL, true)
    REFUSED(seats, LIKES_MAX_SEATS + 1, LIKES_WRONG_SEATS);
    REFUSED(seats, UINT32_MAX, LIKES_WRONG_SEATS);
    REFUSED(users, 0, LIKES_WRONG_USERS);
    REFUSED(room, 4097, LIKES_WRONG_ROOM);
    REFUSED(room, UINT32_MAX, LIKES_WRONG_ROOM);
    REFUSED(hot, 1000001, LIKES_WRONG_HOT);
    REFUSED(hot, LIKES_NO_HOT - 1, LIKES_WRONG_HOT);
    REFUSED(reserved, 1, LIKES_WRONG_RESERVED);
    REFUSED(reserved, 1u << 31, LIKES_WRONG_RESERVED);
    for (int n = 0; n < 5; n++) {
        REFUSED(reserved_too[n], 1, LIKES_WRONG_RESERVED);
        REFUSED(reserved_too[n], UINT64_C(1) << 63, LIKES_WRONG_RESERVED);
    }
    IS(open_core(right, counts, 0, NULL, 0, NULL, 0, &driver), LIKES_WRONG_PAGES);
    IS(open_core(right, NULL, 0, NULL, 0, NULL, 0, &driver), LIKES_WRONG_PAGES);
    IS(open_core(right, counts, LIKES_MAX_PAGES + 1, NULL, 0, NULL, 0, &driver), LIKES_WRONG_PAGES);
    counts[1] = LIKES_MAX_COUNT + 1;
    IS(open_core(right, counts, 2, NULL, 0, NULL, 0, &driver), LIKES_WRONG_COUNT);
    counts[1] = UINT64_MAX;
    IS(open_core(right, counts, 2, NULL, 0, NULL, 0, &driver), LIKES_WRONG_COUNT);
    counts[1] = LIKES_MAX_COUNT;
    IS(open_core(right, counts, 2, NULL, 0, NULL, 0, &driver), LIKES_OK);
    IS(open_core(right, counts, 1, NULL, 0, NULL, 0, &driver), LIKES_IN_USE);
    likes_driver_free(&driver);
    IS(driver.at == NULL, true);
    IS(open_core(right, counts, LIKES_MAX_PAGES, NULL, 0, NULL, 0, &driver), LIKES_OK);
    likes_driver_free(&driver);
    /* Marks that can't all have buckets of their own. Without the last of them they can. */
    static const uint32_t near[] = {4526848,  16248423, 9389577,  13904108, 14600504, 14252306, 1819795,  16059784,
                                    15711586, 13792929, 6334326,  5986128,  6269147,  10848857, 11828272, 13287552,
                                    16393321, 8338505,  13499067, 15641171, 9646610,  11384982, 13908995};
    enum { NEAR = sizeof near / sizeof *near };
    IS(open_core(right, counts, LIKES_MAX_PAGES, near, NEAR, NULL, 0, &driver), LIKES_WRONG_MARKS);
    IS(driver.at == NULL, true);
    IS(open_core(right, counts, LIKES_MAX_PAGES, near, NEAR - 1, NULL, 0, &driver), LIKES_OK);
    is_split(&driver, near, NEAR - 1);
    likes_driver_free(&driver);
}

/* What is left out of the options has its default. */
static void defaults(void) {
    static const uint64_t counts[] = {1, 2};
    long processors = sysconf(_SC_NPROCESSORS_ONLN);
    uint64_t seats = processors < 4 ? 16 * (uint64_t)processors : 64;
    likes_options options = {.counts = counts, .pages = 2, .users = 1000};
    likes_driver driver = {0};
    likes_answer answer;
    IS(likes_driver_seats(&driver), 0);
    IS(likes_open(&options, &driver), LIKES_OK);
    IS(likes_driver_seats(&driver), seats);
    likes_driver_free(&driver);
    IS(likes_driver_seats(&driver), 0);
    options.seats = 1;
    IS(likes_open(&options, &driver), LIKES_OK);
    IS(likes_driver_seats(&driver), 1);
    likes_seat seat = {0};
    IS(likes_driver_take_seat(&driver, &seat), LIKES_OK);
    /* 512 likes between two choices make a page hot, and 64 looks have room. */
    uint32_t turn = LIKES_GOES_ON;
    for (int times = 0; times < 100 && turn == LIKES_GOES_ON; times++) {
        for (uint32_t n = 0; n < 20000; n++)
            IS(likes_seat_like(&seat, n % 1000, 1), LIKES_LIKED);
        turn = likes_driver_turn(&driver, LIKES_END_IF_IT_SERVES);
    }
    IS(turn, LIKES_ANNOUNCED);
    IS(likes_seat_turn(&seat), LIKES_BETWEEN);
    IS(likes_driver_turn(&driver, LIKES_NO_END), LIKES_RELEASED);
    for (int n = 0; n <= 64; n++)
        IS(likes_seat_look(&seat, 0, 1, 0, &answer), n < 64 ? LIKES_WAITS : LIKES_NO_ROOM);
    likes_seat_free(&seat);
    likes_driver_free(&driver);
    /* No pages, and no users. */
    IS(likes_open(&(likes_options){.counts = counts, .users = 1}, &driver), LIKES_WRONG_PAGES);
    IS(likes_open(&(likes_options){.users = 1}, &driver), LIKES_WRONG_PAGES);
    IS(likes_open(&(likes_options){.pages = LIKES_MAX_PAGES + 1, .users = 1}, &driver), LIKES_WRONG_PAGES);
    IS(likes_open(&(likes_options){.counts = counts, .pages = 2}, &driver), LIKES_WRONG_USERS);
}

/* Without counts, all are 0. */
static void zeros(void) {
    likes_options options = {.pages = LIKES_MAX_PAGES, .users = 1, .seats = 1};
    likes_driver driver = {0};
    likes_seat seat = {0};
    uint64_t counts[3] = {8, 8, 8};
    IS(likes_open(&options, &driver), LIKES_OK);
    IS(likes_driver_take_seat(&driver, &seat), LIKES_OK);
    IS(likes_seat_like(&seat, 0, LIKES_MAX_PAGES - 2), LIKES_LIKED);
    IS(likes_seat_retire(&seat), LIKES_GONE);
    IS(likes_driver_last_counts(&driver, LIKES_MAX_PAGES - 3, counts, 3), LIKES_COUNTED);
    IS(counts[0] + counts[2], 0);
    IS(counts[1], 1);
    likes_seat_free(&seat);
    likes_driver_free(&driver);
}

/* An array without its length is refused, and so is a length without an array, each in the order of openings. */
static void forgotten(void) {
    static const uint64_t counts[] = {1};
    static const uint32_t pages[] = {0};
    likes_driver driver = {0};
    likes_options lasts = {.counts = counts, .pages = 1, .users = 1, .lasts = pages}, marks = lasts;
    IS(likes_open(&lasts, &driver), LIKES_WRONG_LASTS);
    lasts.users = 0;
    IS(likes_open(&lasts, &driver), LIKES_WRONG_USERS);
    for (uint32_t users = 1; users < 4; users++) {
        lasts = (likes_options){.counts = counts, .pages = 1, .users = users, .lasts_len = users};
        IS(likes_open(&lasts, &driver), LIKES_WRONG_LASTS);
        lasts.lasts = pages;
        lasts.lasts_len = 0;
        IS(likes_open(&lasts, &driver), LIKES_WRONG_LASTS);
    }
    marks.lasts = NULL;
    marks.marks = pages;
    IS(likes_open(&marks, &driver), LIKES_WRONG_MARKS);
    marks.pages = 0;
    IS(likes_open(&marks, &driver), LIKES_WRONG_PAGES);
    marks = (likes_options){.counts = counts, .pages = 1, .users = 1, .marks_len = 1};
    IS(likes_open(&marks, &driver), LIKES_WRONG_MARKS);
    marks = (likes_options){.counts = counts, .users = 1};
    IS(likes_open(&marks, &driver), LIKES_WRONG_PAGES);
    IS(driver.at == NULL, true);
}

/* Pointers that are NULL. Nothing is done. */
static void nulls(void) {
    static const uint64_t counts[] = {7};
    static const uint32_t marks[] = {0};
    opened it = open_service((likes_options){.seats = 1, .users = 1, .room = 1}, counts, 1, marks, 1);
    likes_options options = {.counts = counts, .pages = 1, .users = 1};
    likes_request request = {.op = LIKES_LIKE};
    likes_answer answer = {.count = 9, .status = 9};
    likes_driver driver = {0};
    uint64_t last = 8;
    IS(likes_open(NULL, &driver), LIKES_NULL);
    IS(likes_open(NULL, &it.driver), LIKES_NULL);
    IS(likes_open(&options, NULL), LIKES_NULL);
    IS(likes_driver_seats(NULL), 0);
    IS(likes_seat_run(&it.seats[0], &request, 1, NULL, 1), 0);
    IS(likes_seat_run(&it.seats[0], NULL, 1, &answer, 1), 0);
    IS(answer.status, LIKES_NULL);
    IS(answer.count, 0);
    IS(likes_seat_lasts(&it.seats[0], 0, NULL, 1), LIKES_NULL);
    IS(likes_driver_snapshot(&it.driver, 0, NULL, 1), LIKES_NULL);
    IS(likes_driver_last_counts(&it.driver, 0, NULL, 1), LIKES_NULL);
    IS(likes_driver_propose(&it.driver, NULL, 1), LIKES_NULL);
    IS(likes_driver_split_pages(&it.driver, NULL, 1), 0);
    IS(likes_seat_retire(&it.seats[0]), LIKES_GONE);
    IS(likes_driver_last_counts(&it.driver, 0, &last, 1), LIKES_COUNTED);
    IS(last, 7);
    free_service(&it);
}

/* An opening in which everything is wrong is put right in the order in which it is refused. */
static void order_of_openings(void) {
    uint64_t counts[] = {0, UINT64_MAX};
    uint32_t marks[] = {1, 1}, lasts[] = {2, 0};
    likes_options options = {.seats = LIKES_MAX_SEATS + 1, .users = 0, .room = 4097, .hot = 1000001};
    likes_driver driver = {0};
    opened it = open_service((likes_options){.seats = 1, .users = 1, .room = 1}, counts, 1, NULL, 0);
    options.reserved_too[1] = 1;
    IS(open_core(options, counts, 0, marks, 2, NULL, 0, &it.driver), LIKES_IN_USE);
    free_service(&it);
    IS(open_core(options, counts, 0, marks, 2, NULL, 0, &driver), LIKES_WRONG_RESERVED);
    options.reserved_too[1] = 0;
    IS(open_core(options, counts, 0, marks, 2, NULL, 0, &driver), LIKES_WRONG_PAGES);
    IS(open_core(options, counts, 2, marks, 2, NULL, 0, &driver), LIKES_WRONG_MARKS);
    marks[1] = 0;
    IS(open_core(options, counts, 2, marks, 2, NULL, 0, &driver), LIKES_WRONG_COUNT);
    counts[1] = 0;
    IS(open_core(options, counts, 2, marks, 2, NULL, 0, &driver), LIKES_WRONG_SEATS);
    options.seats = 1;
    IS(open_core(options, counts, 2, marks, 2, NULL, 0, &driver), LIKES_WRONG_USERS);
    options.users = 1;
    IS(open_core(options, counts, 2, marks, 2, lasts, 2, &driver), LIKES_WRONG_LASTS);
    IS(open_core(options, counts, 2, marks, 2, lasts, 1, &driver), LIKES_WRONG_LASTS);
    lasts[0] = 1;
    IS(open_core(options, counts, 2, marks, 2, lasts, 1, &driver), LIKES_WRONG_ROOM);
    options.room = 1;
    IS(open_core(options, counts, 2, marks, 2, NULL, 0, &driver), LIKES_WRONG_HOT);
    options.hot = 0;
    IS(open_core(options, counts, 2, marks, 2, NULL, 0, &driver), LIKES_OK);
    likes_driver_free(&driver);
}

enum { PAGES = 1024 };

/* Opens a service with these marks, as many as are told, and asks in a split phase which pages are split. */
static void split_by(const uint32_t *marks, size_t marks_len, size_t pages) {
    static const uint64_t counts[PAGES];
    likes_answer answer;
    opened it = open_service((likes_options){.seats = 1, .users = 1, .room = 4096}, counts, pages, marks, marks_len);
    change_phase(&it, 1);
    for (uint32_t page = 0; page < pages; page++) {
        bool is_marked = false;
        for (size_t n = 0; n < marks_len; n++)
            is_marked |= marks[n] == page;
        IS(likes_seat_look(&it.seats[0], 0, page, 0, &answer), is_marked ? LIKES_WAITS : LIKES_SEEN);
    }
    free_service(&it);
}

/* Marks in any order, up to 64 of them; one too many, two alike, and marks of no page. */
static void marks(void) {
    static const uint64_t counts[PAGES];
    const likes_options options = {.seats = 1, .users = 1, .room = 1};
    uint32_t few[] = {1023, 0, 64, 63}, many[LIKES_MAX_MARKS + 1];
    likes_driver driver = {0};
    for (uint32_t n = 0; n <= LIKES_MAX_MARKS; n++)
        many[n] = 1023 - 15 * n;
    split_by(few, 1, PAGES);
    split_by(few, 4, PAGES);
    split_by(many, 64, PAGES);
    IS(open_core(options, counts, PAGES, many, 65, NULL, 0, &driver), LIKES_WRONG_MARKS);
    for (size_t n = 1; n < 64; n++) {
        uint32_t mark = many[n];
        many[n] = many[n == 63 ? 0 : 63];
        IS(open_core(options, counts, PAGES, many, 64, NULL, 0, &driver), LIKES_WRONG_MARKS);
        many[n] = n % 2 ? PAGES : UINT32_MAX;
        IS(open_core(options, counts, PAGES, many, 64, NULL, 0, &driver), LIKES_WRONG_MARKS);
        many[n] = mark;
    }
    for (uint32_t n = 0; n < LIKES_MAX_MARKS; n++)
        many[n] = (n + 32) % 64;
    split_by(many, 64, 64);
    IS(open_core(options, counts, 63, many, 64, NULL, 0, &driver), LIKES_WRONG_MARKS);
    IS(driver.at == NULL, true);
}

/* Every call with an empty handle. */
static void empty_handles(void) {
    likes_driver driver = {0};
    likes_seat seat = {0};
    likes_phase phase = {0};
    likes_answer answer, answers[2];
    likes_found found;
    likes_request requests[2] = {{0}};
    uint64_t counts[1] = {0};
    uint32_t page = 7;
    IS(likes_driver_take_seat(&driver, &seat), LIKES_EMPTY);
    IS(likes_driver_take_phase(&driver, &phase), LIKES_EMPTY);
    IS(likes_phase_now(&phase), 0);
    IS(likes_seat_like(&seat, 0, 0), LIKES_EMPTY);
    IS(likes_seat_look(&seat, 0, 0, 0, &answer), LIKES_EMPTY);
    IS(answer.status, LIKES_EMPTY);
    IS(likes_seat_glance(&seat, 0, 0, &answer), LIKES_EMPTY);
    IS(answer.status, LIKES_EMPTY);
    IS(likes_seat_take_found(&seat, &found), false);
    answers[0].status = answers[1].status = LIKES_OK;
    IS(likes_seat_run(&seat, requests, 2, answers, 2), 0);
    IS(answers[0].status, LIKES_EMPTY);
    IS(answers[1].status, LIKES_OK);
    IS(likes_seat_run(&seat, NULL, 0, NULL, 0), 0);
    IS(likes_seat_last(&seat, 0, &page), LIKES_EMPTY);
    IS(likes_seat_lasts(&seat, 0, &page, 1), LIKES_EMPTY);
    IS(likes_seat_lasts(&seat, UINT32_MAX, NULL, 0), LIKES_EMPTY);
    IS(page, 7);
    IS(likes_seat_turn(&seat), LIKES_EMPTY);
    IS(likes_seat_retire(&seat), LIKES_EMPTY);
    IS(likes_seat_phase(&seat), 0);
    IS(likes_driver_turn(&driver, LIKES_END_IF_IT_SERVES), LIKES_EMPTY);
    IS(likes_driver_turn(&driver, LIKES_END), LIKES_EMPTY);
    IS(likes_driver_turn(&driver, 3), LIKES_EMPTY);
    IS(likes_driver_snapshot(&driver, 0, counts, 1), LIKES_EMPTY);
    IS(likes_driver_snapshot(&driver, UINT32_MAX, NULL, 0), LIKES_EMPTY);
    IS(likes_driver_phase(&driver), 0);
    IS(likes_driver_last_counts(&driver, 0, counts, 1), LIKES_EMPTY);
    IS(likes_driver_last_counts(&driver, UINT32_MAX, NULL, 0), LIKES_EMPTY);
    IS(likes_close(&driver, &seat, 1, counts, 1), LIKES_EMPTY);
    IS(likes_close(&driver, NULL, 0, NULL, 0), LIKES_EMPTY);
    IS(likes_driver_split_pages(&driver, &page, 1), 0);
    IS(likes_driver_split_pages(&driver, NULL, 0), 0);
    IS(page, 7);
    IS(likes_driver_propose(&driver, &page, 1), LIKES_EMPTY);
    IS(likes_driver_propose(&driver, NULL, 0), LIKES_EMPTY);
    IS(driver.at == NULL && seat.at == NULL && phase.at == NULL, true);
}

/* Handles that are to be filled: in use, or one too many. */
static void full_handles(void) {
    const uint64_t counts[1] = {0};
    likes_driver none = {0};
    likes_seat seat = {0};
    likes_phase phase = {0};
    opened it = open_service((likes_options){.seats = 1, .users = 1, .room = 1, .hot = 0}, counts, 1, NULL, 0);
    IS(likes_driver_take_seat(&it.driver, &seat), LIKES_ALL_TAKEN);
    IS(likes_driver_take_phase(&it.driver, &phase), LIKES_ALL_TAKEN);
    IS(likes_driver_take_seat(&it.driver, &it.seats[0]), LIKES_IN_USE);
    IS(likes_driver_take_phase(&it.driver, &it.phase), LIKES_IN_USE);
    IS(likes_driver_take_seat(&none, &it.seats[0]), LIKES_IN_USE);
    IS(likes_driver_take_phase(&none, &it.phase), LIKES_IN_USE);
    IS(seat.at == NULL && phase.at == NULL && none.at == NULL, true);
    free_service(&it);
}

/* NULL, empty handles and freed ones are freed, in each order of a service's handles. */
static void frees(void) {
    const uint64_t counts[1] = {0};
    for (int order = 0; order < 6; order++) {
        opened it = open_service((likes_options){.seats = 1, .users = 1, .room = 1, .hot = 0}, counts, 1, NULL, 0);
        for (int n = 0; n < 6; n++) {
            likes_seat_free(NULL);
            likes_driver_free(NULL);
            likes_phase_free(NULL);
            int next = n >= 3 ? n - 3 : order < 3 ? (order + n) % 3 : (order - n) % 3;
            if (next == 0)
                likes_seat_free(&it.seats[0]);
            else if (next == 1)
                likes_driver_free(&it.driver);
            else
                likes_phase_free(&it.phase);
        }
        IS(it.seats[0].at == NULL && it.driver.at == NULL && it.phase.at == NULL, true);
        IS(likes_seat_like(&it.seats[0], 0, 0), LIKES_EMPTY);
        IS(likes_driver_turn(&it.driver, LIKES_NO_END), LIKES_EMPTY);
        IS(likes_phase_now(&it.phase), 0);
    }
}

/* The phase of a service, as its handle tells it: with the driver's, and when the driver is freed. */
static void phases(void) {
    const uint64_t counts[1] = {0};
    const uint32_t marks[] = {0};
    opened it = open_service((likes_options){.seats = 2, .users = 2, .room = 1, .hot = 0}, counts, 1, marks, 1);
    for (uint64_t phase = 0; phase < 5; phase++) {
        IS(likes_phase_now(&it.phase), phase);
        IS(likes_driver_turn(&it.driver, LIKES_END_IF_IT_SERVES), LIKES_ANNOUNCED);
        IS(likes_seat_turn(&it.seats[0]), LIKES_BETWEEN);
        IS(likes_driver_turn(&it.driver, LIKES_NO_END), LIKES_NOT_ALL_IN);
        IS(likes_seat_turn(&it.seats[1]), LIKES_BETWEEN);
        IS(likes_phase_now(&it.phase), phase);
        IS(likes_driver_turn(&it.driver, LIKES_NO_END), LIKES_RELEASED);
        IS(likes_driver_phase(&it.driver), phase + 1);
    }
    likes_phase copy = it.phase;
    IS(likes_phase_now(&copy), 5);
    likes_driver_free(&it.driver);
    IS(likes_phase_now(&copy), 5);
    for (int i = 0; i < 2; i++)
        likes_seat_free(&it.seats[i]);
    IS(likes_phase_now(&copy), 5);
    likes_phase_free(&copy);
    IS(copy.at == NULL, true);
}

/* A phase that is taken late, when others have passed, by a service that runs on. */
static void late_phase(void) {
    const uint64_t counts[1] = {0};
    const uint32_t marks[] = {0};
    likes_options options = {.seats = 1, .users = 1, .room = 1};
    opened it = {0};
    likes_phase again = {0};
    IS(open_core(options, counts, 1, marks, 1, NULL, 0, &it.driver), LIKES_OK);
    IS(likes_driver_take_seat(&it.driver, &it.seats[0]), LIKES_OK);
    change_phase(&it, 1);
    change_phase(&it, 1);
    IS(likes_phase_now(&it.phase), 0);
    IS(likes_driver_take_phase(&it.driver, &it.phase), LIKES_OK);
    IS(likes_phase_now(&it.phase), 2);
    likes_phase_free(&it.phase);
    IS(likes_driver_take_phase(&it.driver, &again), LIKES_ALL_TAKEN);
    change_phase(&it, 1);
    memcpy(it.filled, &it, sizeof it.filled);
    free_service(&it);
}

/* A service whose handles are moved, all of them, works where they are. */
static void moved(void) {
    const uint64_t counts[] = {10};
    const uint32_t marks[] = {0};
    uint64_t last[1];
    opened it = open_service((likes_options){.seats = 3, .users = 3, .room = 1, .hot = 0}, counts, 1, marks, 1);
    opened *at = (opened *)malloc(sizeof *at);
    *at = it;
    memset(&it, 0xff, sizeof it);
    change_phase(at, 3);
    likes_seat first = at->seats[0];
    at->seats[0] = at->seats[2];
    at->seats[2] = first;
    for (uint32_t i = 0; i < 3; i++)
        IS(likes_seat_like(&at->seats[i], 2 - i, 0), LIKES_LIKED);
    change_phase(at, 3);
    IS(likes_phase_now(&at->phase), 2);
    for (uint32_t i = 0; i < 3; i++)
        IS(likes_seat_retire(&at->seats[i]), LIKES_GONE);
    IS(likes_driver_last_counts(&at->driver, 0, last, 1), LIKES_COUNTED);
    IS(last[0], 13);
    memcpy(at->filled, at, sizeof at->filled);
    free_service(at);
    free(at);
}

/* Wrong users, pages and kinds of requests, one by one and in rows. */
static void wrong_numbers(void) {
    const uint64_t counts[] = {0, 0};
    likes_answer answer, answers[8];
    opened it = open_service((likes_options){.seats = 3, .users = 9, .room = 1, .hot = 0}, counts, 2, NULL, 0);
    likes_seat *seat = &it.seats[1];
    const uint32_t users[] = {9, 10, UINT32_MAX, 0, 3, 2, 4, 4}, pages[] = {0, 0, 0, 0, 1, 2, 2, UINT32_MAX};
    const uint32_t statuses[] = {LIKES_UNKNOWN_USER, LIKES_UNKNOWN_USER, LIKES_UNKNOWN_USER, LIKES_OTHER_SEAT,
                                 LIKES_OTHER_SEAT,   LIKES_OTHER_SEAT,   LIKES_UNKNOWN_PAGE, LIKES_UNKNOWN_PAGE};
    for (uint32_t i = 0; i < 8; i++) {
        IS(likes_seat_like(seat, users[i], pages[i]), statuses[i]);
        IS(likes_seat_look(seat, users[i], pages[i], 1, &answer), statuses[i]);
        IS(answer.status, statuses[i]);
        IS(likes_seat_glance(seat, users[i], pages[i], &answer), statuses[i]);
        IS(answer.status, statuses[i]);
        likes_request row[] = {{.user = users[i], .page = pages[i], .op = i % 3}, {.user = 1, .page = 1}};
        IS(likes_seat_run(seat, row, 2, answers, 2), 2);
        IS(answers[0].status, statuses[i]);
        IS(answers[1].status, LIKES_LIKED);
    }
    likes_request row[] = {
        {.user = 1, .op = 3}, {.user = 1, .op = UINT32_MAX}, {.user = 1, .page = 1, .op = LIKES_LOOK}};
    IS(likes_seat_run(seat, row, 3, answers, 8), 3);
    IS(answers[0].status, LIKES_UNKNOWN_OP);
    IS(answers[1].status, LIKES_UNKNOWN_OP);
    IS(answers[2].status, LIKES_SEEN);
    IS(answers[2].count, 8);
    answers[0].count = UNWRITTEN;
    IS(likes_seat_run(seat, row, 0, answers, 8), 0);
    IS(likes_seat_run(seat, NULL, 0, answers, 8), 0);
    IS(answers[0].count, UNWRITTEN);
    IS(likes_seat_run(seat, row, 3, answers, 0), 0);
    IS(likes_seat_run(seat, row, 3, NULL, 0), 0);
    IS(likes_seat_run(seat, NULL, 0, NULL, 0), 0);
    IS(likes_seat_run(seat, row, 3, answers, 1), 1);
    free_service(&it);
}

/* Requests whose reserved field isn't 0 do nothing, in a joined phase and in a split one. */
static void reserved_requests(void) {
    const uint64_t counts[] = {7};
    const uint32_t marks[] = {0}, values[] = {1, 1u << 31, UINT32_MAX};
    likes_answer answers[4];
    likes_found found;
    opened it = open_service((likes_options){.seats = 1, .users = 1, .room = 4, .hot = 0}, counts, 1, marks, 1);
    for (uint64_t phase = 0; phase < 3; phase++) {
        for (int n = 0; n < 3; n++) {
            likes_request row[] = {{.op = LIKES_LIKE, .reserved = values[n]},
                                   {.op = LIKES_LOOK, .reserved = values[n]},
                                   {.op = LIKES_GLANCE, .reserved = values[n]},
                                   {.op = LIKES_GLANCE}};
            IS(likes_seat_run(&it.seats[0], row, 4, answers, 4), 4);
            for (int i = 0; i < 3; i++) {
                IS(answers[i].status, LIKES_UNKNOWN_OP);
                IS(answers[i].count, 0);
                IS(answers[i].last, 0);
            }
            IS(answers[3].status, phase == 1 ? LIKES_GLIMPSED : LIKES_SEEN);
            IS(answers[3].count, 7);
            IS(answers[3].last, LIKES_NO_PAGE);
        }
        change_phase(&it, 1);
        IS(likes_seat_turn(&it.seats[0]), LIKES_RUNS);
        IS(likes_seat_take_found(&it.seats[0], &found), false);
    }
    free_service(&it);
}

/* Ends that are none of likes_end do nothing: while a phase runs, while it is ending, and after the end. */
static void unknown_ends(void) {
    const uint64_t counts[] = {0};
    const uint32_t marks[] = {0}, ends[] = {3, 4, 1u << 8, 1u << 31, UINT32_MAX};
    opened it = open_service((likes_options){.seats = 1, .users = 1, .room = 1, .hot = 0}, counts, 1, marks, 1);
    for (int stage = 0; stage < 4; stage++) {
        uint64_t phase = likes_driver_phase(&it.driver);
        for (size_t n = 0; n < sizeof ends / sizeof *ends; n++)
            IS(likes_driver_turn(&it.driver, ends[n]), LIKES_UNKNOWN_END);
        IS(likes_driver_phase(&it.driver), phase);
        if (stage == 0)
            IS(likes_seat_turn(&it.seats[0]), LIKES_RUNS);
        if (stage == 0)
            IS(likes_driver_turn(&it.driver, LIKES_END_IF_IT_SERVES), LIKES_ANNOUNCED);
        if (stage == 1)
            IS(likes_seat_turn(&it.seats[0]), LIKES_BETWEEN);
        if (stage == 2) {
            IS(likes_driver_turn(&it.driver, LIKES_NO_END), LIKES_RELEASED);
            change_phase(&it, 1);
            IS(likes_seat_retire(&it.seats[0]), LIKES_GONE);
            IS(likes_driver_turn(&it.driver, LIKES_NO_END), LIKES_ENDED);
        }
    }
    free_service(&it);
}

/* What a seat answers where several refusals apply: the first of likes.h. */
static void order_of_refusals(void) {
    const uint64_t counts[] = {0};
    const uint32_t marks[] = {0};
    likes_answer answer;
    opened it = open_service((likes_options){.seats = 2, .users = 4, .room = 1, .hot = 0}, counts, 1, marks, 1);
    likes_seat *seat = &it.seats[0];
    IS(likes_driver_turn(&it.driver, LIKES_END_IF_IT_SERVES), LIKES_ANNOUNCED);
    IS(likes_seat_like(seat, 9, 9), LIKES_BETWEEN);
    IS(likes_seat_look(seat, 1, 9, 0, &answer), LIKES_BETWEEN);
    IS(likes_seat_glance(seat, 0, 9, &answer), LIKES_BETWEEN);
    IS(likes_seat_turn(&it.seats[1]), LIKES_BETWEEN);
    IS(likes_driver_turn(&it.driver, LIKES_NO_END), LIKES_RELEASED);
    IS(likes_seat_look(seat, 0, 0, 0, &answer), LIKES_WAITS);
    IS(likes_seat_look(seat, 9, 9, 0, &answer), LIKES_UNKNOWN_USER);
    IS(likes_seat_look(seat, 1, 9, 0, &answer), LIKES_OTHER_SEAT);
    IS(likes_seat_look(seat, 0, 9, 0, &answer), LIKES_UNKNOWN_PAGE);
    IS(likes_seat_look(seat, 0, 0, 0, &answer), LIKES_NO_ROOM);
    change_phase(&it, 2);
    IS(likes_seat_retire(seat), LIKES_GONE);
    IS(likes_seat_like(seat, 9, 9), LIKES_GONE);
    IS(likes_seat_look(seat, 1, 9, 0, &answer), LIKES_GONE);
    IS(likes_driver_turn(&it.driver, LIKES_END_IF_IT_SERVES), LIKES_ANNOUNCED);
    IS(likes_seat_glance(seat, 9, 9, &answer), LIKES_GONE);
    free_service(&it);
}

/* A row that ends between two phases, and one that ends at a look without room. */
static void rows(void) {
    const uint64_t counts[] = {0};
    const uint32_t marks[] = {0};
    likes_answer answers[4];
    likes_request row[4] = {
        {.tag = 1, .op = LIKES_LOOK}, {.op = LIKES_LIKE}, {.op = LIKES_GLANCE}, {.tag = 2, .op = LIKES_LOOK}};
    opened it = open_service((likes_options){.seats = 1, .users = 1, .room = 1, .hot = 0}, counts, 1, marks, 1);
    change_phase(&it, 1);
    IS(likes_seat_run(&it.seats[0], row, 4, answers, 4), 3);
    IS(answers[0].status, LIKES_WAITS);
    IS(answers[1].status, LIKES_LIKED);
    IS(answers[2].status, LIKES_GLIMPSED);
    IS(answers[2].count, 1);
    IS(answers[3].status, LIKES_NO_ROOM);
    IS(likes_driver_turn(&it.driver, LIKES_END_IF_IT_SERVES), LIKES_ANNOUNCED);
    IS(likes_seat_run(&it.seats[0], row, 4, answers, 4), 0);
    IS(answers[0].status, LIKES_BETWEEN);
    free_service(&it);
}

/* Changes the phase by the calls of seat 1. Seat 0, which is gone, can't come back meanwhile. */
static void change_by_seat_1(opened *it) {
    IS(likes_driver_turn(&it->driver, LIKES_END_IF_IT_SERVES), LIKES_ANNOUNCED);
    IS(likes_seat_come_back(&it->seats[0]), LIKES_BETWEEN);
    IS(likes_seat_turn(&it->seats[1]), LIKES_BETWEEN);
    IS(likes_seat_come_back(&it->seats[0]), LIKES_BETWEEN);
    IS(likes_driver_turn(&it->driver, LIKES_END_IF_IT_SERVES), LIKES_RELEASED);
}

/* Seat 0 is away in phases 1 and 2, and comes back in phase 3. Both leave phase 4 while it is ending, and seat 1 comes
 * back in phase 5. After the last counts nobody does. */
static void comes_back(void) {
    const uint64_t counts[] = {10, 20};
    const uint32_t marks[] = {0};
    uint64_t last[2];
    likes_answer answer;
    likes_seat none = {0};
    IS(likes_seat_come_back(&none), LIKES_EMPTY);
    opened it = open_service((likes_options){.seats = 2, .users = 4, .room = 1, .hot = 0}, counts, 2, marks, 1);
    IS(likes_seat_come_back(&it.seats[0]), LIKES_RUNS);
    IS(likes_seat_like(&it.seats[0], 0, 0), LIKES_LIKED);
    IS(likes_seat_retire(&it.seats[0]), LIKES_GONE);
    change_by_seat_1(&it);
    IS(likes_seat_like(&it.seats[1], 1, 0), LIKES_LIKED);
    change_by_seat_1(&it);
    change_by_seat_1(&it);
    IS(likes_seat_come_back(&it.seats[0]), LIKES_RUNS);
    IS(likes_seat_phase(&it.seats[0]), 3);
    IS(likes_seat_like(&it.seats[0], 0, 0), LIKES_LIKED);
    IS(likes_seat_glance(&it.seats[0], 0, 0, &answer), LIKES_GLIMPSED);
    IS(answer.count, 13);
    IS(likes_seat_come_back(&it.seats[0]), LIKES_RUNS);
    change_phase(&it, 2);
    IS(likes_driver_turn(&it.driver, LIKES_END_IF_IT_SERVES), LIKES_ANNOUNCED);
    IS(likes_seat_retire(&it.seats[0]), LIKES_GONE);
    IS(likes_seat_retire(&it.seats[1]), LIKES_GONE);
    IS(likes_seat_come_back(&it.seats[0]), LIKES_BETWEEN);
    IS(likes_driver_turn(&it.driver, LIKES_NO_END), LIKES_RELEASED);
    IS(likes_driver_turn(&it.driver, LIKES_NO_END), LIKES_ENDED);
    IS(likes_seat_come_back(&it.seats[1]), LIKES_RUNS);
    IS(likes_driver_turn(&it.driver, LIKES_NO_END), LIKES_GOES_ON);
    IS(likes_seat_like(&it.seats[1], 1, 0), LIKES_LIKED);
    change_by_seat_1(&it);
    IS(likes_seat_retire(&it.seats[1]), LIKES_GONE);
    IS(likes_driver_last_counts(&it.driver, 0, last, 2), LIKES_COUNTED);
    IS(last[0], 14);
    IS(last[1], 20);
    IS(likes_seat_come_back(&it.seats[0]), LIKES_BETWEEN);
    free_service(&it);
}

/* Calls after the seat is gone: a status, and found looks can still be taken. */
static void after_gone(void) {
    const uint64_t counts[] = {10, 20};
    const uint32_t marks[] = {0};
    uint64_t last[2];
    likes_answer answer;
    likes_found found;
    likes_request row[] = {{.op = LIKES_LIKE}, {.op = LIKES_LOOK}, {.op = LIKES_GLANCE}};
    likes_answer answers[3];
    opened it = open_service((likes_options){.seats = 2, .users = 2, .room = 2, .hot = 0}, counts, 2, marks, 1);
    change_phase(&it, 2);
    IS(likes_seat_look(&it.seats[0], 0, 0, 9, &answer), LIKES_WAITS);
    IS(likes_seat_retire(&it.seats[0]), LIKES_RUNS);
    change_phase(&it, 2);
    IS(likes_seat_retire(&it.seats[0]), LIKES_GONE);
    IS(likes_seat_like(&it.seats[0], 0, 0), LIKES_GONE);
    IS(likes_seat_look(&it.seats[0], 0, 0, 1, &answer), LIKES_GONE);
    IS(likes_seat_glance(&it.seats[0], 0, 0, &answer), LIKES_GONE);
    IS(likes_seat_turn(&it.seats[0]), LIKES_GONE);
    IS(likes_seat_retire(&it.seats[0]), LIKES_GONE);
    IS(likes_seat_run(&it.seats[0], row, 3, answers, 3), 3);
    for (int i = 0; i < 3; i++)
        IS(answers[i].status, LIKES_GONE);
    IS(likes_seat_phase(&it.seats[0]), 0);
    IS(likes_seat_take_found(&it.seats[0], &found), true);
    IS(found.tag, 9);
    IS(found.count, 10);
    IS(likes_seat_take_found(&it.seats[0], &found), false);
    /* The other seat goes on alone. */
    IS(likes_driver_last_counts(&it.driver, 0, last, 2), LIKES_NOT_ENDED);
    IS(likes_driver_turn(&it.driver, LIKES_END_IF_IT_SERVES), LIKES_ANNOUNCED);
    IS(likes_driver_turn(&it.driver, LIKES_END_IF_IT_SERVES), LIKES_NOT_ALL_IN);
    IS(likes_seat_turn(&it.seats[1]), LIKES_BETWEEN);
    IS(likes_driver_turn(&it.driver, LIKES_END_IF_IT_SERVES), LIKES_RELEASED);
    IS(likes_seat_like(&it.seats[1], 1, 0), LIKES_LIKED);
    IS(likes_driver_turn(&it.driver, LIKES_END_IF_IT_SERVES), LIKES_ANNOUNCED);
    IS(likes_seat_retire(&it.seats[1]), LIKES_BETWEEN);
    IS(likes_driver_turn(&it.driver, LIKES_END_IF_IT_SERVES), LIKES_RELEASED);
    IS(likes_seat_retire(&it.seats[1]), LIKES_GONE);
    IS(likes_driver_turn(&it.driver, LIKES_END_IF_IT_SERVES), LIKES_ENDED);
    IS(likes_driver_last_counts(&it.driver, 0, last, 2), LIKES_COUNTED);
    IS(last[0], 11);
    IS(last[1], 20);
    free_service(&it);
}

static void clear(uint64_t *counts, size_t pages) {
    for (size_t page = 0; page < pages; page++)
        counts[page] = UNWRITTEN;
}

/* Ranges of a service with four pages: those that go past the last page are refused by both calls that have one. */
static void wrong_ranges(likes_driver *driver) {
    static const struct {
        uint32_t from;
        size_t length;
    } ranges[] = {{0, 5}, {1, 4}, {3, 2}, {4, 1}, {5, 1}, {1u << 31, 4}, {UINT32_MAX - 1, 4}, {UINT32_MAX, 1},
                  {UINT32_MAX, 5}};
    uint64_t counts[5];
    clear(counts, 5);
    for (size_t n = 0; n < sizeof ranges / sizeof *ranges; n++) {
        IS(likes_driver_snapshot(driver, ranges[n].from, counts, ranges[n].length), LIKES_WRONG_RANGE);
        IS(likes_driver_last_counts(driver, ranges[n].from, counts, ranges[n].length), LIKES_WRONG_RANGE);
    }
    for (size_t page = 0; page < 5; page++)
        IS(counts[page], UNWRITTEN);
}

/* Last counts by ranges, as often as one likes, and what the driver answers from then on. */
static void last_counts(void) {
    const uint64_t counts[] = {10, 20, 30, 40};
    const uint32_t marks[] = {3, 0};
    uint64_t whole[4], parts[4], again[4];
    likes_seat extra = {0};
    opened it = open_service((likes_options){.seats = 2, .users = 2, .room = 2, .hot = 0}, counts, 4, marks, 2);
    change_phase(&it, 2);
    change_phase(&it, 2);
    for (uint32_t page = 0; page < 4; page++)
        for (uint32_t i = 0; i <= page; i++)
            IS(likes_seat_like(&it.seats[i % 2], i % 2, page), LIKES_LIKED);
    wrong_ranges(&it.driver);
    IS(likes_seat_retire(&it.seats[0]), LIKES_GONE);
    clear(whole, 4);
    IS(likes_driver_last_counts(&it.driver, 0, whole, 4), LIKES_NOT_ENDED);
    IS(likes_driver_last_counts(&it.driver, 4, NULL, 0), LIKES_NOT_ENDED);
    IS(whole[0], UNWRITTEN);
    IS(likes_seat_retire(&it.seats[1]), LIKES_GONE);
    wrong_ranges(&it.driver);
    IS(likes_driver_phase(&it.driver), 2);
    IS(likes_driver_last_counts(&it.driver, 0, whole, 4), LIKES_COUNTED);
    clear(parts, 4);
    IS(likes_driver_last_counts(&it.driver, 1, parts + 1, 3), LIKES_COUNTED);
    IS(parts[0], UNWRITTEN);
    IS(likes_driver_last_counts(&it.driver, 0, parts, 1), LIKES_COUNTED);
    clear(again, 4);
    IS(likes_driver_last_counts(&it.driver, 2, again, 0), LIKES_COUNTED);
    IS(likes_driver_last_counts(&it.driver, 4, NULL, 0), LIKES_COUNTED);
    IS(likes_driver_last_counts(&it.driver, 5, NULL, 0), LIKES_WRONG_RANGE);
    IS(again[0], UNWRITTEN);
    for (int times = 0; times < 3; times++) {
        IS(likes_driver_turn(&it.driver, times < 2 ? LIKES_END_IF_IT_SERVES : LIKES_NO_END), LIKES_ENDED);
        IS(likes_phase_now(&it.phase), 2);
        IS(likes_driver_phase(&it.driver), 2);
        IS(likes_driver_snapshot(&it.driver, 0, again, 4), LIKES_NO_MOMENT);
        IS(likes_driver_take_seat(&it.driver, &extra), LIKES_ALL_TAKEN);
        for (uint32_t i = 0; i < 2; i++)
            IS(likes_seat_like(&it.seats[i], i, 0), LIKES_GONE);
    }
    IS(again[0], UNWRITTEN);
    wrong_ranges(&it.driver);
    IS(likes_driver_last_counts(&it.driver, 0, again, 4), LIKES_COUNTED);
    for (uint32_t page = 0; page < 4; page++) {
        IS(whole[page], counts[page] + page + 1);
        IS(parts[page], whole[page]);
        IS(again[page], whole[page]);
    }
    free_service(&it);
}

/* Seats leave in a joined phase that is ending, by their first call in it. The driver then releases a split phase in
 * which nobody is left: there are no last counts before turns have led to the next joined one. */
static void all_gone_in_split(void) {
    const uint64_t counts[] = {10, 20};
    const uint32_t marks[] = {0};
    uint64_t last[2];
    likes_answer answer;
    likes_found found;
    opened it = open_service((likes_options){.seats = 2, .users = 2, .room = 2, .hot = 0}, counts, 2, marks, 1);
    change_phase(&it, 2);
    for (uint32_t i = 0; i < 2; i++) {
        IS(likes_seat_like(&it.seats[i], i, 0), LIKES_LIKED);
        IS(likes_seat_look(&it.seats[i], i, 0, 5 + i, &answer), LIKES_WAITS);
    }
    change_phase(&it, 2);
    IS(likes_driver_turn(&it.driver, LIKES_END_IF_IT_SERVES), LIKES_ANNOUNCED);
    IS(likes_seat_retire(&it.seats[0]), LIKES_GONE);
    IS(likes_seat_take_found(&it.seats[0], &found), true);
    IS(found.tag, 5);
    IS(found.count, 12);
    IS(found.ran, 2);
    IS(likes_driver_turn(&it.driver, LIKES_END_IF_IT_SERVES), LIKES_NOT_ALL_IN);
    IS(likes_seat_retire(&it.seats[1]), LIKES_GONE);
    IS(likes_seat_take_found(&it.seats[1], &found), true);
    IS(found.tag, 6);
    IS(found.count, 12);
    IS(likes_driver_turn(&it.driver, LIKES_END_IF_IT_SERVES), LIKES_RELEASED);
    IS(likes_driver_phase(&it.driver), 3);
    clear(last, 2);
    IS(likes_driver_last_counts(&it.driver, 0, last, 2), LIKES_NOT_ENDED);
    IS(likes_driver_turn(&it.driver, LIKES_END_IF_IT_SERVES), LIKES_ANNOUNCED);
    IS(likes_driver_last_counts(&it.driver, 0, last, 2), LIKES_NOT_ENDED);
    IS(last[0], UNWRITTEN);
    IS(likes_driver_turn(&it.driver, LIKES_END_IF_IT_SERVES), LIKES_RELEASED);
    IS(likes_driver_turn(&it.driver, LIKES_END_IF_IT_SERVES), LIKES_ENDED);
    IS(likes_driver_phase(&it.driver), 4);
    IS(likes_driver_last_counts(&it.driver, 0, last, 2), LIKES_COUNTED);
    IS(last[0], 12);
    IS(last[1], 20);
    free_service(&it);
}

/* Seats leave in a joined phase that is ending, and the last counts are those of that phase. */
static void last_of_ending(void) {
    const uint64_t counts[] = {10};
    const uint32_t marks[] = {0};
    uint64_t now[1], last[1];
    opened it = open_service((likes_options){.seats = 1, .users = 1, .room = 1, .hot = 0}, counts, 1, marks, 1);
    IS(likes_seat_like(&it.seats[0], 0, 0), LIKES_LIKED);
    IS(likes_driver_turn(&it.driver, LIKES_END_IF_IT_SERVES), LIKES_ANNOUNCED);
    IS(likes_seat_retire(&it.seats[0]), LIKES_GONE);
    IS(likes_driver_snapshot(&it.driver, 0, now, 1), LIKES_COUNTED);
    IS(likes_driver_last_counts(&it.driver, 0, last, 1), LIKES_COUNTED);
    IS(now[0], 11);
    IS(last[0], 11);
    IS(likes_driver_snapshot(&it.driver, 0, now, 1), LIKES_NO_MOMENT);
    IS(likes_driver_turn(&it.driver, LIKES_END_IF_IT_SERVES), LIKES_ENDED);
    IS(likes_driver_phase(&it.driver), 0);
    free_service(&it);
}

/* A driver's answers, with a page that is proposed, and counts of one moment. */
static void driving(void) {
    const uint64_t counts[] = {5, 5};
    const uint32_t one[] = {1};
    uint64_t now[3] = {0};
    likes_answer answer;
    opened it = open_service((likes_options){.seats = 1, .users = 1, .room = 2, .hot = 0}, counts, 2, NULL, 0);
    likes_seat *seat = &it.seats[0];
    IS(likes_driver_propose(&it.driver, one, 1), LIKES_OK);
    IS(likes_driver_turn(&it.driver, LIKES_NO_END), LIKES_GOES_ON);
    IS(likes_driver_snapshot(&it.driver, 0, now, 3), LIKES_WRONG_RANGE);
    IS(likes_driver_snapshot(&it.driver, 3, NULL, 0), LIKES_WRONG_RANGE);
    IS(likes_driver_snapshot(&it.driver, 2, NULL, 0), LIKES_NO_MOMENT);
    IS(likes_driver_snapshot(&it.driver, 0, now, 2), LIKES_NO_MOMENT);
    for (int i = 0; i < 3; i++)
        IS(likes_seat_like(seat, 0, 1), LIKES_LIKED);
    IS(likes_seat_like(seat, 0, 0), LIKES_LIKED);
    IS(likes_driver_turn(&it.driver, LIKES_END_IF_IT_SERVES), LIKES_ANNOUNCED);
    IS(likes_driver_snapshot(&it.driver, 0, now, 2), LIKES_NO_MOMENT);
    IS(likes_seat_turn(seat), LIKES_BETWEEN);
    IS(likes_driver_snapshot(&it.driver, 1, now + 1, 1), LIKES_COUNTED);
    IS(now[0], 0);
    IS(now[1], 8);
    IS(likes_seat_like(seat, 0, 0), LIKES_BETWEEN);
    IS(likes_driver_snapshot(&it.driver, 2, NULL, 0), LIKES_COUNTED);
    IS(now[0], 0);
    IS(likes_driver_snapshot(&it.driver, 0, now, 1), LIKES_COUNTED);
    IS(now[0], 6);
    now[1] = 0;
    IS(likes_driver_snapshot(&it.driver, 0, now, 2), LIKES_COUNTED);
    IS(likes_driver_phase(&it.driver), 0);
    IS(now[0], 6);
    IS(now[1], 8);
    IS(likes_driver_turn(&it.driver, LIKES_NO_END), LIKES_RELEASED);
    IS(likes_driver_phase(&it.driver), 1);
    IS(likes_seat_look(seat, 0, 0, 1, &answer), LIKES_SEEN); /* page 0 isn't split */
    IS(answer.count, 6);
    IS(likes_seat_look(seat, 0, 1, 1, &answer), LIKES_WAITS);
    /* The seat's room is half taken: the phase ends early. No counts are given at the end of a split phase. */
    IS(likes_driver_turn(&it.driver, LIKES_NO_END), LIKES_ANNOUNCED);
    IS(likes_driver_turn(&it.driver, LIKES_NO_END), LIKES_NOT_ALL_IN);
    IS(likes_seat_turn(seat), LIKES_BETWEEN);
    IS(likes_driver_snapshot(&it.driver, 0, now, 2), LIKES_NO_MOMENT);
    IS(likes_driver_turn(&it.driver, LIKES_NO_END), LIKES_RELEASED);
    IS(likes_driver_turn(&it.driver, LIKES_NO_END), LIKES_GOES_ON);
    free_service(&it);
    /* Where nothing is split, the first phase goes on. */
    it = open_service((likes_options){.seats = 1, .users = 1, .room = 2, .hot = 0}, counts, 2, NULL, 0);
    IS(likes_driver_turn(&it.driver, LIKES_END_IF_IT_SERVES), LIKES_GOES_ON);
    free_service(&it);
}

/* A split phase ends early when the looks that wait at a seat take half of its room. Found looks don't count. */
static void early_end(void) {
    const uint64_t counts[] = {0};
    const uint32_t marks[] = {0};
    likes_answer answer;
    opened it = open_service((likes_options){.seats = 1, .users = 1, .room = 4, .hot = 0}, counts, 1, marks, 1);
    for (int phase = 1; phase <= 3; phase += 2) {
        change_phase(&it, 1);
        IS(likes_seat_look(&it.seats[0], 0, 0, 0, &answer), LIKES_WAITS);
        IS(likes_driver_turn(&it.driver, LIKES_NO_END), LIKES_GOES_ON);
        IS(likes_seat_look(&it.seats[0], 0, 0, 0, &answer), LIKES_WAITS);
        IS(likes_driver_turn(&it.driver, LIKES_NO_END), LIKES_ANNOUNCED);
        IS(likes_seat_turn(&it.seats[0]), LIKES_BETWEEN);
        IS(likes_driver_turn(&it.driver, LIKES_NO_END), LIKES_RELEASED);
        IS(likes_seat_turn(&it.seats[0]), LIKES_RUNS);
    }
    free_service(&it);
}

/* The error that a test of live handles ends with: a call has written one. */
static void end_on_write(int signal) {
    (void)signal;
    static const char text[] = "a call writes a handle that it neither fills nor frees\n";
    _exit(write(STDOUT_FILENO, text, sizeof text - 1) > 0 ? 1 : 2);
}

/* The calls of a service whose handles can't be written: none of them does, not even what is there already. So threads
 * may use handles that are side by side. */
static void still_handles(void) {
    static _Alignas(4096) union {
        opened it;
        unsigned char page[4096];
    } still;
    const uint64_t counts[] = {10, 20};
    const uint32_t marks[] = {0};
    likes_request row[] = {{.op = LIKES_LIKE}, {.op = LIKES_LOOK}, {.op = LIKES_GLANCE, .page = 1}, {.op = 3}};
    likes_answer answers[4];
    likes_found found;
    uint64_t last[2];
    uint32_t page, split[2];
    likes_seat extra = {0};
    likes_phase another = {0};
    still.it = open_service((likes_options){.seats = 2, .users = 2, .room = 2, .hot = 0}, counts, 2, marks, 1);
    void (*before)(int) = signal(SIGSEGV, end_on_write);
    IS(mprotect(&still, sizeof still, PROT_READ), 0);
    for (uint64_t phase = 0; phase < 2; phase++) {
        IS(likes_driver_turn(&still.it.driver, LIKES_NO_END), LIKES_GOES_ON);
        for (uint32_t i = 0; i < 2; i++) {
            IS(likes_seat_like(&still.it.seats[i], i, 0), LIKES_LIKED);
            IS(likes_seat_look(&still.it.seats[i], i, 1, 0, &answers[0]), LIKES_SEEN);
            IS(likes_seat_glance(&still.it.seats[i], i, 0, &answers[0]), phase == 1 ? LIKES_GLIMPSED : LIKES_SEEN);
            IS(likes_seat_phase(&still.it.seats[i]), phase);
            IS(likes_seat_last(&still.it.seats[i], i, &page), LIKES_OK);
            IS(likes_seat_lasts(&still.it.seats[i], 0, &page, 1), LIKES_OK);
        }
        IS(likes_seat_run(&still.it.seats[0], row, 4, answers, 4), 4);
        IS(likes_driver_propose(&still.it.driver, &page, 1), LIKES_OK);
        change_phase(&still.it, 2);
        IS(likes_driver_split_pages(&still.it.driver, split, 2), 1);
        IS(likes_driver_snapshot(&still.it.driver, 0, last, 2), LIKES_NO_MOMENT);
        IS(likes_phase_now(&still.it.phase), phase + 1);
    }
    IS(likes_seat_retire(&still.it.seats[0]), LIKES_GONE);
    IS(likes_seat_take_found(&still.it.seats[0], &found), true);
    IS(likes_seat_retire(&still.it.seats[1]), LIKES_GONE);
    IS(likes_driver_turn(&still.it.driver, LIKES_END_IF_IT_SERVES), LIKES_ENDED);
    IS(likes_driver_last_counts(&still.it.driver, 0, last, 2), LIKES_COUNTED);
    IS(last[0], 16);
    IS(likes_driver_take_seat(&still.it.driver, &extra), LIKES_ALL_TAKEN);
    IS(likes_driver_take_phase(&still.it.driver, &another), LIKES_ALL_TAKEN);
    IS(mprotect(&still, sizeof still, PROT_READ | PROT_WRITE), 0);
    signal(SIGSEGV, before);
    free_service(&still.it);
}

/* All statuses with their texts, in the order of their numbers. */
static const struct {
    uint32_t status;
    const char *text;
} told[] = {
    {LIKES_OK, "ok"},
    {LIKES_LIKED, "liked"},
    {LIKES_SEEN, "seen"},
    {LIKES_WAITS, "waits"},
    {LIKES_RUNS, "runs"},
    {LIKES_BETWEEN, "between"},
    {LIKES_NO_ROOM, "no room"},
    {LIKES_LIKE_LIMIT, "like limit"},
    {LIKES_GONE, "gone"},
    {LIKES_GOES_ON, "goes on"},
    {LIKES_ANNOUNCED, "announced"},
    {LIKES_NOT_ALL_IN, "not all in"},
    {LIKES_RELEASED, "released"},
    {LIKES_ENDED, "ended"},
    {LIKES_COUNTED, "counted"},
    {LIKES_NO_MOMENT, "no moment"},
    {LIKES_NOT_ENDED, "not ended"},
    {LIKES_ALL_TAKEN, "all taken"},
    {LIKES_GLIMPSED, "glimpsed"},
    {LIKES_BUSY, "busy"},
    {LIKES_NONE, "none"},
    {LIKES_EMPTY, "empty"},
    {LIKES_IN_USE, "in use"},
    {LIKES_NO_MEMORY, "no memory"},
    {LIKES_UNKNOWN_USER, "unknown user"},
    {LIKES_OTHER_SEAT, "other seat"},
    {LIKES_UNKNOWN_PAGE, "unknown page"},
    {LIKES_UNKNOWN_OP, "unknown op"},
    {LIKES_UNKNOWN_END, "unknown end"},
    {LIKES_WRONG_RANGE, "the range goes past the end"},
    {LIKES_WRONG_RESERVED, "a reserved field is not 0"},
    {LIKES_WRONG_PAGES, "pages is 1 to 16777216, with a count for each"},
    {LIKES_WRONG_MARKS, "marks are at most 64 pages, no two alike"},
    {LIKES_WRONG_COUNT, "an initial count is at most 1000000000000000000; a file is loaded without any"},
    {LIKES_WRONG_SEATS, "seats is 1 to 64; a service is closed with all of its own in order"},
    {LIKES_WRONG_USERS, "users is 1 to 4294967295"},
    {LIKES_WRONG_ROOM, "room is 1 to 4096"},
    {LIKES_WRONG_HOT, "hot is 1 to 1000000"},
    {LIKES_WRONG_LASTS, "last likes are one for each user, of a page or none; a file is loaded without them"},
    {LIKES_NULL, "a pointer is NULL"},
    {LIKES_OPEN_CLIENT, "a client is open"},
    {LIKES_NO_THREAD, "no thread"},
    {LIKES_WRONG_PERIOD, "period_us is 1 to 1000000000"},
    {LIKES_NOT_STARTED, "not started"},
    {LIKES_UNKNOWN_SEAT, "unknown seat"},
    {LIKES_LATE, "late"},
    {LIKES_HOLDS_SEAT, "the thread holds a seat"},
    {LIKES_NOT_LOCKED, "the thread does not hold the seat"},
    {LIKES_OPEN_WRITER, "a writer is open"},
    {LIKES_WRONG_TAG, "a tag is below 9223372036854775808"},
    {LIKES_STOPPED, "the service was stopped"},
    {LIKES_WRONG_LENGTH, "an array has one entry for each page, or for each user; a file is loaded with no fewer"},
    {LIKES_FILE_FAULT, "the file can't be read or written"},
    {LIKES_NOT_SAVED, "the file was not written by likes_service_save"},
    {LIKES_OTHER_VERSION, "the file has another version"},
    {LIKES_WRONG_SIZE, "the file is too short or too long"},
    {LIKES_WRONG_SUM, "the file was changed since it was written"},
};
enum { TOLD = sizeof told / sizeof *told, OUTCOMES = 21, ERRORS = 20 };

/* Each status has its number and its text. No other number has one. Those that say success are told apart. */
static void statuses(void) {
    static const uint32_t far[] = {65536, 65636, 1u << 31, UINT32_MAX - 99, UINT32_MAX - 1, UINT32_MAX};
    uint32_t known = 0;
    for (uint32_t status = 0; status < 65536; status++) {
        uint32_t next = known < OUTCOMES ? known : known < OUTCOMES + ERRORS ? 100 + known - OUTCOMES
                                                                            : 1000 + known - OUTCOMES - ERRORS;
        bool is_known = known < TOLD && status == next;
        if (is_known)
            IS(told[known].status, status);
        IS(strcmp(likes_status_text(status), is_known ? told[known].text : "unknown status"), 0);
        IS(likes_is_success(status), status < 3 || status == LIKES_GLIMPSED || status == LIKES_COUNTED);
        known += is_known;
    }
    IS(known, TOLD);
    for (size_t n = 0; n < sizeof far / sizeof *far; n++) {
        IS(strcmp(likes_status_text(far[n]), "unknown status"), 0);
        IS(likes_is_success(far[n]), false);
    }
}

/* So many million calls over many phases, in the same memory. */
static void memory(uint64_t millions) {
    const uint64_t counts[4] = {0};
    const uint32_t marks[] = {0, 2};
    likes_request requests[64];
    likes_answer answers[64];
    likes_found found;
    opened it = open_service((likes_options){.seats = 1, .users = 1000, .room = 64, .hot = 0}, counts, 4, marks, 2);
    for (uint32_t i = 0; i < 64; i++)
        requests[i] = (likes_request){.tag = i, .user = i * 7, .page = i % 4, .op = i % 8 ? LIKES_LIKE : LIKES_LOOK};
    size_t before = mallinfo2().uordblks;
    for (uint64_t calls = 0; calls < millions * 1000000; calls += 64) {
        size_t done = 0;
        while ((done += likes_seat_run(&it.seats[0], requests + done, 64 - done, answers, 64)) < 64) {
            likes_driver_turn(&it.driver, LIKES_END_IF_IT_SERVES);
            while (likes_seat_take_found(&it.seats[0], &found))
                continue;
        }
        likes_driver_turn(&it.driver, calls % 1024 == 0 ? LIKES_END_IF_IT_SERVES : LIKES_NO_END);
    }
    IS(mallinfo2().uordblks, before);
    free_service(&it);
}

/* Tries to close a service, and requires that this is refused and changes nothing. */
static void refuses_end(opened *it, const likes_seat *seats, size_t many, size_t pages, uint32_t status) {
    likes_seat passed[4], after[4];
    uint64_t last[3];
    memcpy(passed, seats, sizeof passed);
    memcpy(after, seats, sizeof after);
    clear(last, 3);
    IS(likes_close(&it->driver, passed, many, last, pages), status);
    IS(memcmp(passed, after, sizeof passed), 0);
    IS(memcmp(it, it->filled, sizeof it->filled), 0);
    IS(last[0] == UNWRITTEN && last[1] == UNWRITTEN && last[2] == UNWRITTEN, true);
}

/* The end of a service with all its seats: what is refused, by right and wrong seats, and what is left. */
static void closes(void) {
    static const opened none;
    const uint64_t counts[] = {10, 20};
    const likes_options options = {.seats = 3, .users = 6, .room = 1, .hot = 0};
    uint64_t last[2];
    opened it = open_service(options, counts, 2, NULL, 0), other = open_service(options, counts, 2, NULL, 0);
    for (uint32_t user = 0; user < 6; user++)
        IS(likes_seat_like(&it.seats[user % 3], user, user % 2), LIKES_LIKED);
    IS(likes_seat_like(&other.seats[0], 0, 1), LIKES_LIKED);
    likes_seat *own = it.seats;
    const likes_seat empty = {0}, more[] = {own[0], own[1], own[2], own[2]}, turned[4] = {own[0], own[2], own[1]},
                     twice[4] = {own[0], own[1], own[1]}, first[4] = {own[0], own[0], own[0]},
                     lacking[4] = {own[0], empty, own[2]}, strange[4] = {own[0], other.seats[1], own[2]};
    for (uint32_t gone = 0; gone < 3; gone++) {
        refuses_end(&it, more, 3, 2, LIKES_NOT_ENDED);
        IS(likes_seat_retire(&own[gone]), LIKES_GONE);
        IS(likes_seat_retire(&other.seats[gone]), LIKES_GONE);
    }
    for (size_t pages = 0; pages < 4; pages++)
        if (pages != 2)
            refuses_end(&it, more, 3, pages, LIKES_WRONG_PAGES);
    for (size_t many = 0; many < 5; many++)
        if (many != 3)
            refuses_end(&it, more, many, 2, LIKES_WRONG_SEATS);
    refuses_end(&it, turned, 3, 2, LIKES_WRONG_SEATS);
    refuses_end(&it, twice, 3, 2, LIKES_WRONG_SEATS);
    refuses_end(&it, first, 3, 2, LIKES_WRONG_SEATS);
    refuses_end(&it, strange, 3, 2, LIKES_WRONG_SEATS);
    refuses_end(&it, other.seats, 3, 2, LIKES_WRONG_SEATS);
    refuses_end(&other, more, 3, 2, LIKES_WRONG_SEATS);
    refuses_end(&it, lacking, 3, 2, LIKES_EMPTY);
    IS(likes_close(&it.driver, NULL, 3, last, 2), LIKES_NULL);
    IS(likes_close(&it.driver, own, 3, NULL, 2), LIKES_NULL);
    IS(likes_close(&it.driver, NULL, 0, last, 2), LIKES_WRONG_SEATS);
    IS(likes_close(&it.driver, own, 3, NULL, 0), LIKES_WRONG_PAGES);
    IS(likes_seat_come_back(&own[1]), LIKES_RUNS);
    refuses_end(&it, more, 3, 2, LIKES_NOT_ENDED);
    IS(likes_seat_like(&own[1], 1, 0), LIKES_LIKED);
    IS(likes_seat_retire(&own[1]), LIKES_GONE);
    IS(likes_close(&it.driver, own, 3, last, 2), LIKES_COUNTED);
    IS(last[0] == 14 && last[1] == 23, true);
    IS(memcmp(&it.driver, &none.driver, sizeof it.driver), 0);
    IS(memcmp(own, none.seats, sizeof it.seats), 0);
    IS(likes_close(&it.driver, own, 3, last, 2), LIKES_EMPTY);
    IS(likes_phase_now(&it.phase), 0);
    likes_phase_free(&it.phase);
    /* The other service is as it was, and last counts that were written before are the same. */
    IS(likes_driver_last_counts(&other.driver, 0, last, 2), LIKES_COUNTED);
    IS(last[0] == 10 && last[1] == 21, true);
    clear(last, 2);
    likes_phase_free(&other.phase);
    IS(likes_close(&other.driver, other.seats, 3, last, 2), LIKES_COUNTED);
    IS(last[0] == 10 && last[1] == 21, true);
    IS(memcmp(&other, &none, offsetof(opened, filled)), 0);
}

/* A service closes where a split phase goes on, too, and where seats that left keep looks that were found. A driver that
 * has a seat to hand out still can't be closed. */
static void closes_late(void) {
    const uint64_t counts[] = {10, 20};
    const uint32_t marks[] = {0};
    uint64_t last[2];
    likes_answer answer;
    likes_driver driver = {0};
    likes_seat seats[2] = {{0}};
    IS(open_core((likes_options){.seats = 2, .users = 2, .room = 2}, counts, 2, marks, 1, NULL, 0, &driver), LIKES_OK);
    IS(likes_driver_take_seat(&driver, &seats[0]), LIKES_OK);
    IS(likes_seat_retire(&seats[0]), LIKES_GONE);
    IS(likes_close(&driver, seats, 1, last, 2), LIKES_WRONG_SEATS);
    IS(likes_close(&driver, seats, 2, last, 2), LIKES_EMPTY);
    IS(likes_driver_take_seat(&driver, &seats[1]), LIKES_OK);
    IS(likes_driver_turn(&driver, LIKES_END_IF_IT_SERVES), LIKES_ANNOUNCED);
    IS(likes_seat_turn(&seats[1]), LIKES_BETWEEN);
    IS(likes_driver_turn(&driver, LIKES_NO_END), LIKES_RELEASED);
    IS(likes_seat_like(&seats[1], 1, 0), LIKES_LIKED);
    IS(likes_seat_look(&seats[1], 1, 0, 5, &answer), LIKES_WAITS);
    IS(likes_close(&driver, seats, 2, last, 2), LIKES_NOT_ENDED);
    IS(likes_driver_turn(&driver, LIKES_END), LIKES_ANNOUNCED);
    IS(likes_seat_retire(&seats[1]), LIKES_BETWEEN);
    IS(likes_driver_turn(&driver, LIKES_END), LIKES_RELEASED);
    IS(likes_driver_turn(&driver, LIKES_END), LIKES_ANNOUNCED);
    IS(likes_seat_retire(&seats[1]), LIKES_GONE);
    IS(likes_driver_turn(&driver, LIKES_END), LIKES_RELEASED);
    IS(likes_driver_phase(&driver), 3);
    IS(likes_driver_last_counts(&driver, 0, last, 2), LIKES_NOT_ENDED);
    IS(likes_close(&driver, seats, 2, last, 2), LIKES_COUNTED);
    IS(last[0] == 11 && last[1] == 20, true);
    IS(driver.at == NULL && driver.seats == 0 && seats[0].at == NULL && seats[1].at == NULL, true);
}

int main(int count, char **words) {
    statuses();
    plain();
    two_seats();
    slots();
    moves();
    proposals();
    many_proposed();
    hot_pages();
    room();
    openings();
    defaults();
    zeros();
    forgotten();
    nulls();
    order_of_openings();
    marks();
    empty_handles();
    full_handles();
    frees();
    phases();
    late_phase();
    moved();
    wrong_numbers();
    reserved_requests();
    unknown_ends();
    order_of_refusals();
    rows();
    after_gone();
    comes_back();
    last_counts();
    all_gone_in_split();
    last_of_ending();
    closes();
    closes_late();
    driving();
    early_end();
    still_handles();
    if (count > 1)
        memory(strtoull(words[1], NULL, 10));
    puts("all calls answered right");
    return 0;
}
