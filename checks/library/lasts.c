/* A service that lasts: one ends, and another is opened with its counts and last likes. What an opening refuses of last
 * likes, what is told of them and when, and phases that end in any case.
 *
 * If an answer is wrong, it prints a line and exits with status 1. checks/library/live builds and runs it. */
#include "harness.h"

enum { SEATS = 2, PAGES = 3, USERS = 5 };

/* Instead of a number that was not written. */
#define UNWRITTEN 0xa5a5a5a5u

typedef struct {
    likes_driver driver;
    likes_seat seats[SEATS];
} service;

static service open_with(const uint64_t *counts, const uint32_t *lasts, size_t lasts_len, bool is_marked) {
    static const likes_options options = {.seats = SEATS, .users = USERS, .room = 4};
    static const uint32_t marks[] = {1};
    service it = {0};
    IS(open_core(options, counts, PAGES, marks, is_marked, lasts, lasts_len, &it.driver), LIKES_OK);
    for (int i = 0; i < SEATS; i++)
        IS(likes_driver_take_seat(&it.driver, &it.seats[i]), LIKES_OK);
    return it;
}

static void free_all(service *it) {
    for (int i = 0; i < SEATS; i++)
        likes_seat_free(&it->seats[i]);
    likes_driver_free(&it->driver);
}

/* Has both seats retire, and makes the driver's turns until the service has ended. */
static void end(service *it) {
    uint32_t status;
    do {
        for (int i = 0; i < SEATS; i++)
            likes_seat_retire(&it->seats[i]);
        status = likes_driver_turn(&it->driver, LIKES_END_IF_IT_SERVES);
    } while (status != LIKES_ENDED);
}

static uint32_t last_of(service *it, uint32_t user) {
    uint32_t page = UNWRITTEN;
    IS(likes_seat_last(&it->seats[user % SEATS], user, &page), LIKES_OK);
    return page;
}

/* Compares all last likes, told one by one and by ranges. */
static void tells(int line, service *it, const uint32_t *lasts) {
    for (uint32_t user = 0; user < USERS; user++)
        hold_answer(line, "a last like", last_of(it, user), lasts[user]);
    for (uint32_t seat = 0; seat < SEATS; seat++) {
        uint32_t own = (USERS - seat + SEATS - 1) / SEATS;
        for (uint32_t from = 0; from <= own; from++)
            for (uint32_t many = 0; many <= own - from; many++) {
                uint32_t row[USERS + 1];
                memset(row, 0xa5, sizeof row);
                uint32_t status = likes_seat_lasts(&it->seats[seat], from, many ? row : NULL, many);
                hold_answer(line, "a range", status, LIKES_OK);
                for (uint32_t n = 0; n < USERS + 1; n++)
                    hold_answer(line, "a row", row[n], n < many ? lasts[(from + n) * SEATS + seat] : UNWRITTEN);
            }
    }
}

/* A service of three users ends, and another goes on from its counts and last likes. */
static void again(void) {
    static const likes_options options = {.seats = SEATS, .users = 3, .room = 4};
    uint64_t counts[2] = {10, 20};
    uint32_t lasts[3] = {LIKES_NO_PAGE, LIKES_NO_PAGE, LIKES_NO_PAGE}, row[2];
    likes_answer answer;
    for (int round = 0; round < 3; round++) {
        service it = {0};
        IS(open_core(options, counts, 2, NULL, 0, lasts, round == 0 ? 0 : 3, &it.driver), LIKES_OK);
        for (int i = 0; i < SEATS; i++)
            IS(likes_driver_take_seat(&it.driver, &it.seats[i]), LIKES_OK);
        /* In each round user 0 looks at page 0, and user 1 at page 1. */
        IS(likes_seat_look(&it.seats[0], 0, 0, 0, &answer), LIKES_SEEN);
        IS(answer.count, 10 + (uint64_t)round);
        IS(answer.last, round == 0 ? LIKES_NO_PAGE : 0);
        IS(likes_seat_look(&it.seats[1], 1, 1, 0, &answer), LIKES_SEEN);
        IS(answer.count, 20 + 2 * (uint64_t)round);
        IS(answer.last, LIKES_NO_PAGE);
        IS(likes_seat_like(&it.seats[0], 2, 1), LIKES_LIKED);
        IS(likes_seat_like(&it.seats[0], 0, 1), LIKES_LIKED);
        IS(likes_seat_like(&it.seats[0], 0, 0), LIKES_LIKED);
        end(&it);
        IS(likes_driver_last_counts(&it.driver, 0, counts, 2), LIKES_COUNTED);
        IS(likes_seat_lasts(&it.seats[0], 0, row, 2), LIKES_OK);
        lasts[0] = row[0];
        lasts[2] = row[1];
        IS(likes_seat_lasts(&it.seats[1], 0, lasts + 1, 1), LIKES_OK);
        free_all(&it);
    }
    IS(counts[0], 13);
    IS(counts[1], 26);
    IS(lasts[0], 0);
    IS(lasts[1], LIKES_NO_PAGE);
    IS(lasts[2], 1);
}

/* Last likes that are too few or too many, or of no page. */
static void openings(void) {
    static const uint64_t counts[PAGES] = {0};
    static const likes_options options = {.seats = SEATS, .users = USERS, .room = 1};
    static const uint32_t wrong[] = {PAGES, PAGES + 1, 1u << 24, 1u << 31, UINT32_MAX - 1};
    uint32_t lasts[USERS + 1] = {0};
    likes_driver driver = {0};
    for (size_t length = 1; length <= USERS + 1; length++)
        if (length != USERS)
            IS(open_core(options, counts, PAGES, NULL, 0, lasts, length, &driver), LIKES_WRONG_LASTS);
    for (int user = 0; user < USERS; user++)
        for (size_t n = 0; n < sizeof wrong / sizeof *wrong; n++) {
            lasts[user] = wrong[n];
            IS(open_core(options, counts, PAGES, NULL, 0, lasts, USERS, &driver), LIKES_WRONG_LASTS);
            lasts[user] = LIKES_NO_PAGE;
        }
    IS(driver.at == NULL, true);
}

/* Who is refused, and when: the order of refusals, and that nothing is written. */
static void refusals(service *it) {
    uint32_t page = UNWRITTEN, row[3] = {UNWRITTEN, UNWRITTEN, UNWRITTEN};
    IS(likes_seat_last(&it->seats[0], USERS, &page), LIKES_UNKNOWN_USER);
    IS(likes_seat_last(&it->seats[0], UINT32_MAX, &page), LIKES_UNKNOWN_USER);
    IS(likes_seat_last(&it->seats[1], USERS, &page), LIKES_UNKNOWN_USER);
    IS(likes_seat_last(&it->seats[0], 1, &page), LIKES_OTHER_SEAT);
    IS(likes_seat_last(&it->seats[1], 4, &page), LIKES_OTHER_SEAT);
    IS(page, UNWRITTEN);
    IS(likes_seat_lasts(&it->seats[1], 0, row, 3), LIKES_WRONG_RANGE);
    IS(likes_seat_lasts(&it->seats[1], 1, row, 2), LIKES_WRONG_RANGE);
    IS(likes_seat_lasts(&it->seats[1], 2, row, 1), LIKES_WRONG_RANGE);
    IS(likes_seat_lasts(&it->seats[1], 3, NULL, 0), LIKES_WRONG_RANGE);
    IS(likes_seat_lasts(&it->seats[1], UINT32_MAX, row, 3), LIKES_WRONG_RANGE);
    IS(likes_seat_lasts(&it->seats[0], 3, row, 1), LIKES_WRONG_RANGE);
    for (int n = 0; n < 3; n++)
        IS(row[n], UNWRITTEN);
}

/* Last likes in every state: in a joined phase, at its end, in a split phase, and when the seats are gone. */
static void states(void) {
    static const uint64_t counts[PAGES] = {0};
    uint32_t lasts[USERS] = {2, LIKES_NO_PAGE, 0, 1, LIKES_NO_PAGE};
    uint64_t now[PAGES];
    service it = open_with(counts, lasts, USERS, true);
    tells(__LINE__, &it, lasts);
    refusals(&it);
    for (uint64_t phase = 0; phase < 3; phase++) {
        for (uint32_t user = 0; user < USERS; user += 2) {
            lasts[user] = (uint32_t)((user + phase) % PAGES);
            IS(likes_seat_like(&it.seats[0], user, lasts[user]), LIKES_LIKED);
            tells(__LINE__, &it, lasts);
        }
        IS(likes_driver_turn(&it.driver, LIKES_END_IF_IT_SERVES), LIKES_ANNOUNCED);
        tells(__LINE__, &it, lasts);
        /* Neither call does phase work: the seats have still to answer. */
        IS(likes_driver_turn(&it.driver, LIKES_NO_END), LIKES_NOT_ALL_IN);
        for (int i = 0; i < SEATS; i++)
            IS(likes_seat_turn(&it.seats[i]), LIKES_BETWEEN);
        IS(likes_driver_snapshot(&it.driver, 0, now, PAGES), phase % 2 == 0 ? LIKES_COUNTED : LIKES_NO_MOMENT);
        tells(__LINE__, &it, lasts);
        refusals(&it);
        IS(likes_driver_turn(&it.driver, LIKES_NO_END), LIKES_RELEASED);
        tells(__LINE__, &it, lasts);
        for (int i = 0; i < SEATS; i++)
            IS(likes_seat_turn(&it.seats[i]), LIKES_RUNS);
    }
    end(&it);
    tells(__LINE__, &it, lasts);
    refusals(&it);
    IS(likes_driver_last_counts(&it.driver, 0, now, PAGES), LIKES_COUNTED);
    tells(__LINE__, &it, lasts);
    likes_driver_free(&it.driver);
    tells(__LINE__, &it, lasts);
    free_all(&it);
}

/* Where nothing is split, only LIKES_END ends a joined phase. It doesn't when all seats have left. */
static void ends(void) {
    static const uint64_t counts[PAGES] = {5, 6, 7};
    uint64_t now[PAGES];
    service it = open_with(counts, NULL, 0, false);
    IS(likes_driver_turn(&it.driver, LIKES_NO_END), LIKES_GOES_ON);
    IS(likes_driver_turn(&it.driver, LIKES_END_IF_IT_SERVES), LIKES_GOES_ON);
    IS(likes_seat_like(&it.seats[1], 3, 2), LIKES_LIKED);
    IS(likes_driver_turn(&it.driver, LIKES_END), LIKES_ANNOUNCED);
    IS(likes_driver_turn(&it.driver, LIKES_END), LIKES_NOT_ALL_IN);
    for (int i = 0; i < SEATS; i++)
        IS(likes_seat_turn(&it.seats[i]), LIKES_BETWEEN);
    IS(likes_driver_snapshot(&it.driver, 0, now, PAGES), LIKES_COUNTED);
    for (int page = 0; page < PAGES; page++)
        IS(now[page], counts[page] + (page == 2));
    IS(last_of(&it, 3), 2);
    IS(likes_driver_turn(&it.driver, LIKES_END), LIKES_RELEASED);
    IS(likes_driver_phase(&it.driver), 1);
    /* A split phase may be ended, also if nothing is split in it, but not unasked. */
    IS(likes_driver_turn(&it.driver, LIKES_NO_END), LIKES_GOES_ON);
    IS(likes_driver_turn(&it.driver, LIKES_END_IF_IT_SERVES), LIKES_ANNOUNCED);
    for (int i = 0; i < SEATS; i++)
        IS(likes_seat_turn(&it.seats[i]), LIKES_BETWEEN);
    IS(likes_driver_turn(&it.driver, LIKES_NO_END), LIKES_RELEASED);
    IS(likes_driver_turn(&it.driver, LIKES_END_IF_IT_SERVES), LIKES_GOES_ON);
    for (int i = 0; i < SEATS; i++)
        IS(likes_seat_retire(&it.seats[i]), LIKES_GONE);
    IS(likes_driver_turn(&it.driver, LIKES_END), LIKES_ENDED);
    IS(likes_driver_phase(&it.driver), 2);
    free_all(&it);
}

int main(void) {
    again();
    openings();
    states();
    ends();
    puts("all last likes told right");
    return 0;
}
