/* Takes services with 1, 3 and 64 seats through many phases, two of them past phase 16,777,214, the last one of a run:
 * in the first phases, each millionth and the last ones all answers and counts must be right, also while one seat after
 * the other retires. The totals must be right.
 *
 * usage: far */
#include "opening.h"

#include <inttypes.h>
#include <stdio.h>
#include <stdlib.h>

/* How many phases a service has, with so many seats. The last phase of a program is 16,777,214. */
typedef struct {
    uint32_t seats;
    uint64_t phases;
} journey;

static const journey journeys[] = {{1, 16777218}, {3, 16777218}, {64, 2000000}};

enum { CLOSE = 4 };

static likes_driver driver;
static likes_seat seats[LIKES_MAX_SEATS];
static uint32_t number; /* of the seats that have not retired: the first ones */
static uint64_t phase, liked[2];

static void hold(bool is_right, const char *text) {
    if (!is_right) {
        printf("wrong: with %u seats in phase %" PRIu64 ", %s\n", number, phase, text);
        exit(1);
    }
}

/* Ends the phase, and releases the next. The seats enter that by their next calls. */
static void change(void) {
    hold(likes_driver_turn(&driver, LIKES_END_IF_IT_SERVES) == LIKES_ANNOUNCED, "the end was not announced");
    for (uint32_t i = 0; i < number; i++)
        hold(likes_seat_turn(&seats[i]) == LIKES_BETWEEN, "a seat did not answer");
    hold(likes_driver_turn(&driver, LIKES_NO_END) == LIKES_RELEASED, "the next phase was not released");
    phase++;
    hold(likes_driver_phase(&driver) == phase, "the driver reports another phase");
}

/* The same, where the driver waits for each seat. */
static void change_slowly(void) {
    hold(likes_driver_turn(&driver, LIKES_END_IF_IT_SERVES) == LIKES_ANNOUNCED, "the end was not announced");
    for (uint32_t i = 0; i < number; i++) {
        hold(likes_driver_turn(&driver, LIKES_NO_END) == LIKES_NOT_ALL_IN, "the driver did not wait for a seat");
        hold(likes_seat_turn(&seats[i]) == LIKES_BETWEEN, "a seat did not answer");
        hold(likes_seat_turn(&seats[i]) == LIKES_BETWEEN, "a seat did not wait");
    }
    hold(likes_driver_turn(&driver, LIKES_NO_END) == LIKES_RELEASED, "the next phase was not released");
    phase++;
}

/* A like of a seat's only user. */
static void like(uint32_t seat, uint32_t page) {
    hold(likes_seat_like(&seats[seat], seat, page) == LIKES_LIKED, "a like was not counted");
    hold(likes_seat_phase(&seats[seat]) == phase, "a seat reports another phase");
    liked[page]++;
}

/* A look at the page that is not marked shows all likes at once. */
static void look(uint32_t seat) {
    likes_answer answer;
    hold(likes_seat_look(&seats[seat], seat, 1, 0, &answer) == LIKES_SEEN, "a look was not answered");
    hold(answer.count == 20 + liked[1] && answer.last == 1, "a look shows another count or last like");
}

/* A split phase: each seat likes the marked page, and asks for a look at it. A glance shows the likes of the phases
 * before, and the seat's own. */
static void split_phase(void) {
    uint64_t count = 10 + liked[0];
    likes_answer answer;
    for (uint32_t i = 0; i < number; i++) {
        like(i, 1);
        look(i);
        like(i, 0);
        hold(likes_seat_look(&seats[i], i, 0, phase + i, &answer) == LIKES_WAITS, "a look did not wait");
        hold(likes_seat_glance(&seats[i], i, 0, &answer) == LIKES_GLIMPSED, "a glance was not answered");
        hold(answer.count == count + 1, "a glance shows another count");
        hold(likes_seat_glance(&seats[i], i, 1, &answer) == LIKES_SEEN, "a glance tells no exact count");
        hold(answer.count == 20 + liked[1], "a glance of a page that is not split shows another count");
    }
}

/* The next joined phase: each seat's look is found by its first call, before its like. It shows all likes of the split
 * phase, and those that seats before it have added since. */
static void joined_phase(void) {
    likes_found found;
    for (uint32_t i = 0; i < number; i++) {
        uint64_t count = 10 + liked[0];
        like(i, 0);
        hold(likes_seat_take_found(&seats[i], &found), "a look was not found");
        hold(found.tag == phase - 1 + i && found.asked == phase - 1 && found.ran == phase,
             "a look was found in another phase");
        hold(found.user == i && found.count == count && found.last == 0, "a found look shows something else");
        like(i, 1);
        look(i);
    }
}

static void two_phases(void) {
    change_slowly();
    split_phase();
    change();
    joined_phase();
}

/* One seat after the other retires, and the others go on. */
static void retire_all(void) {
    while (number > 0) {
        hold(likes_seat_retire(&seats[number - 1]) == LIKES_GONE, "a seat did not retire");
        number--;
        if (number > 0)
            two_phases();
    }
}

static void travel(const journey *at) {
    const uint64_t counts[] = {10, 20};
    const uint32_t marks[] = {0};
    uint64_t totals[2];
    likes_options options = {.seats = at->seats, .users = at->seats, .room = 2};
    number = at->seats;
    phase = liked[0] = liked[1] = 0;
    hold(open_core(options, counts, 2, marks, 1, NULL, 0, &driver) == LIKES_OK, "no service was opened");
    for (uint32_t i = 0; i < at->seats; i++)
        hold(likes_driver_take_seat(&driver, &seats[i]) == LIKES_OK, "no seat was taken");
    while (phase < at->phases) {
        if (phase % 1000000 < CLOSE || phase + 2 * CLOSE >= at->phases)
            two_phases();
        else
            change();
    }
    retire_all();
    hold(likes_driver_turn(&driver, LIKES_END_IF_IT_SERVES) == LIKES_ENDED, "the service did not end");
    hold(likes_driver_last_counts(&driver, 0, totals, 2) == LIKES_COUNTED, "there are no last counts");
    hold(totals[0] == 10 + liked[0] && totals[1] == 20 + liked[1], "a total is wrong");
    hold(likes_driver_turn(&driver, LIKES_END_IF_IT_SERVES) == LIKES_ENDED, "the service went on");
    hold(likes_driver_phase(&driver) == phase, "the driver reports another phase at the end");
    for (uint32_t i = 0; i < at->seats; i++)
        likes_seat_free(&seats[i]);
    likes_driver_free(&driver);
    printf("%u seats: %" PRIu64 " phases, %" PRIu64 " likes\n", at->seats, phase, liked[0] + liked[1]);
}

int main(void) {
    for (size_t i = 0; i < sizeof journeys / sizeof *journeys; i++)
        travel(&journeys[i]);
    return 0;
}
