// Each call of likes::Driver, its seats and its phase. It ends with status 1 and a line where something is wrong.
#include "likes_core.hpp"
#include "tests.hpp"

#include <functional>
#include <iostream>
#include <thread>

static likes::Options with(std::uint32_t users, std::uint32_t seats) {
    likes::Options options;
    options.users = users;
    options.seats = seats;
    return options;
}

static likes::Options two_seats() {
    likes::Options options = with(4, 2);
    options.room = 2;
    options.hot = likes::no_hot;
    options.marks = {0};
    return options;
}

// Two seats, page 0 marked and page 1 not.
struct Two {
    likes::Driver driver = likes::Driver(two_seats(), {10, 0});
    std::vector<likes::Seat> seats;

    Two() {
        while (auto seat = driver.take_seat())
            seats.push_back(std::move(*seat));
        hold(seats.size() == 2, "two seats");
    }

    void change_phase() {
        hold(driver.turn(LIKES_END_IF_IT_SERVES) == LIKES_ANNOUNCED, "an end is announced");
        for (likes::Seat &seat : seats)
            hold(seat.turn() == LIKES_BETWEEN, "a seat answers");
        hold(driver.turn() == LIKES_RELEASED, "a phase is released");
    }

    // Turns the driver until all seats are gone, which nobody has any more.
    void end() {
        seats.clear();
        for (int turns = 0; driver.turn(LIKES_END_IF_IT_SERVES) != LIKES_ENDED; turns++)
            hold(turns < 100, "the service ends");
    }

    void last_counts(const std::vector<std::uint64_t> &right) {
        std::vector<std::uint64_t> counts(right.size());
        hold(driver.last_counts(0, counts) == LIKES_COUNTED && counts == right, "last counts");
    }
};

static bool has(const likes::Look &look, likes_status outcome, std::optional<std::uint32_t> last, std::uint64_t count) {
    return look.outcome == outcome && look.seen && look.seen->last == last && look.seen->count == count;
}

static bool shows(const likes::Look &look, std::optional<std::uint32_t> last, std::uint64_t count) {
    return has(look, LIKES_SEEN, last, count);
}

static bool glimpses(const likes::Look &look, std::optional<std::uint32_t> last, std::uint64_t count) {
    return has(look, LIKES_GLIMPSED, last, count);
}

static void three_phases() {
    Two two;
    likes::Seat &first = two.seats[0], &second = two.seats[1];
    hold(first.like(0, 0) == LIKES_LIKED && shows(first.look(0, 0, 1), 0, 11), "a look in phase 0");
    two.change_phase();
    hold(first.like(0, 0) == LIKES_LIKED && first.like(2, 0) == LIKES_LIKED, "likes of seat 0 in phase 1");
    hold(second.like(1, 0) == LIKES_LIKED, "a like of seat 1 in phase 1");
    likes::Look waits = first.look(0, 0, 7);
    hold(waits.outcome == LIKES_WAITS && !waits.seen && !first.take_found(), "a look that waits");
    hold(glimpses(first.glance(0, 0), 0, 13) && glimpses(second.glance(3, 0), std::nullopt, 12), "glances");
    hold(shows(first.glance(0, 1), 0, 0), "a glance at a page that isn't split");
    hold(shows(first.look(0, 1, 8), 0, 0) && first.phase() == 1, "a look at a page that isn't split");
    two.change_phase();
    hold(two.driver.phase() == 2 && first.like(0, 1) == LIKES_LIKED, "a like in phase 2");
    std::optional<likes::Found> found = first.take_found();
    hold(found && found->tag == 7 && found->seen.count == 14 && found->seen.last == 0u && found->asked == 1 && found->ran == 2, "a found look");
    hold(!first.take_found(), "a look is found twice");
}

static void refusals() {
    Two two;
    likes::Seat &first = two.seats[0];
    std::vector<std::uint64_t> counts(2);
    hold(thrown([&] { first.like(4, 0); }) == LIKES_UNKNOWN_USER, "a user too many");
    hold(thrown([&] { first.look(1, 0, 0); }) == LIKES_OTHER_SEAT, "another seat's user");
    hold(thrown([&] { first.glance(0, 2); }) == LIKES_UNKNOWN_PAGE, "a page too many");
    hold(thrown([&] { first.last(5); }) == LIKES_UNKNOWN_USER, "the last like of a user too many");
    hold(thrown([&] { first.lasts(1, 2); }) == LIKES_WRONG_RANGE, "last likes past the last");
    hold(thrown([&] { two.driver.snapshot(1, counts); }) == LIKES_WRONG_RANGE, "a snapshot past the last page");
    hold(thrown([&] { two.driver.last_counts(1, counts); }) == LIKES_WRONG_RANGE, "last counts past the last page");
    hold(thrown([&] { likes::Driver(with(4, 65), {0}); }) == LIKES_WRONG_SEATS, "a service with 65 seats");
    hold(thrown([&] { likes::Driver(with(4, 0), {0}); }) == LIKES_WRONG_SEATS, "a service with no seats");
    hold(thrown([&] { likes::Driver(likes::Options(), {0}); }) == LIKES_WRONG_USERS, "a service with no users");
    likes::Seat moved = std::move(first);
    hold(thrown([&] { first.turn(); }) == LIKES_EMPTY && moved.turn() == LIKES_RUNS, "a seat that was moved");
}

// A seat that another takes the place of retires at once, as one that is destroyed.
static void replaced() {
    Two two;
    two.seats[0] = std::move(two.seats[1]);
    hold(two.seats[0].retire() == LIKES_GONE && two.driver.turn() == LIKES_ENDED, "a seat that is replaced");
    two.last_counts({10, 0});
}

static void rows() {
    Two two;
    two.change_phase();
    std::vector<likes_answer> answers;
    const likes_request look = {5, 0, 0, LIKES_LOOK, 0};
    std::vector<likes_request> row = {{0, 2, 1, LIKES_LIKE, 0}, {0, 2, 9, LIKES_GLANCE, 0}, look, look, look, look};
    hold(two.seats[0].run(row, answers) == 4, "a row stops where there is no room");
    const std::uint32_t right[] = {LIKES_LIKED, LIKES_UNKNOWN_PAGE, LIKES_WAITS, LIKES_WAITS, LIKES_NO_ROOM};
    for (std::size_t i = 0; i < 5; i++)
        hold(answers[i].status == right[i], "an answer of a row");
    hold(two.seats[0].run(row, answers, 6) == 6, "a row from behind its end");
}

static void snapshots() {
    Two two;
    std::vector<std::uint64_t> counts(2), one(1);
    two.seats[1].like(3, 1);
    hold(two.driver.snapshot(0, counts) == LIKES_NO_MOMENT, "a snapshot of no moment");
    hold(two.driver.turn(LIKES_END) == LIKES_ANNOUNCED && two.seats[0].turn() == LIKES_BETWEEN, "an end");
    hold(two.driver.turn() == LIKES_NOT_ALL_IN && two.seats[1].turn() == LIKES_BETWEEN, "a seat is missing");
    hold(two.driver.snapshot(0, counts) == LIKES_COUNTED && counts[0] == 10 && counts[1] == 1, "a snapshot");
    hold(two.driver.snapshot(1, one) == LIKES_COUNTED && one[0] == 1, "a snapshot of a page");
    const std::vector<likes::Last> lasts = {std::nullopt, 1u};
    hold(two.seats[1].lasts(0, 2) == lasts && two.seats[1].last(3) == 1u, "last likes");
}

static void split_pages() {
    Two two;
    two.driver.propose({1, 1, 2});
    for (int changes = 0; changes < 2; changes++) {
        two.change_phase();
        hold(two.driver.split_pages() == std::vector<std::uint32_t>{0}, "the marked page alone");
    }
    two.change_phase();
    hold(two.driver.split_pages().size() == 2 && two.driver.split_pages(1).size() == 1, "a page is proposed");
    hold(two.driver.split_pages(SIZE_MAX).size() == 2, "all pages, with more room than memory");
    two.driver.propose({});
    std::optional<likes::Phase> phase = two.driver.take_phase();
    hold(phase && phase->now() == 3 && !two.driver.take_phase(), "the phase");
}

static void again() {
    Two two;
    two.seats[0].like(2, 1);
    hold(two.seats[0].retire() == LIKES_GONE && two.seats[0].like(2, 1) == LIKES_GONE, "a seat that is gone");
    std::vector<std::uint64_t> counts(2);
    hold(two.driver.last_counts(0, counts) == LIKES_NOT_ENDED, "last counts too early");
    two.end();
    two.last_counts({10, 1});
    likes::Options options = with(1, 1);
    options.lasts = {1u};
    likes::Driver driver(options, {10, 1});
    hold(shows(driver.take_seat()->look(0, 1, 0), 1, 1), "a service that goes on");
}

static void comes_back() {
    Two two;
    likes::Seat &seat = two.seats[0];
    hold(seat.come_back() == LIKES_RUNS && seat.retire() == LIKES_GONE, "a seat that is there");
    hold(seat.come_back() == LIKES_RUNS && seat.like(2, 1) == LIKES_LIKED, "a seat that comes back");
    hold(seat.retire() == LIKES_GONE && two.seats[1].retire() == LIKES_GONE, "both retire");
    two.last_counts({10, 1});
    hold(seat.come_back() == LIKES_BETWEEN, "after the last counts");
}

// Destroys a seat of two in some state. Phases go on to change, and its like is counted.
static void destroy(const std::function<void(Two &)> &like) {
    Two two;
    like(two);
    two.seats.pop_back();
    std::uint64_t phase = two.driver.phase();
    for (int turns = 0; turns < 8; turns++) {
        two.driver.turn(LIKES_END);
        two.seats[0].turn();
    }
    hold(two.driver.phase() > phase + 1, "a seat that was destroyed holds up another");
    two.end();
    two.last_counts({11, 0});
}

static void like(Two &two) {
    hold(two.seats[1].like(1, 0) == LIKES_LIKED, "a like before the end of a seat");
}

static void like_in_split_phase(Two &two) {
    two.change_phase();
    like(two);
}

static void like_before_end(Two &two) {
    like_in_split_phase(two);
    hold(two.driver.turn(LIKES_END) == LIKES_ANNOUNCED, "the end of a split phase");
}

static void like_and_answer(Two &two) {
    like_before_end(two);
    hold(two.seats[1].turn() == LIKES_BETWEEN, "a seat between two phases");
}

// Likes as a user whose seat it is, and destroys the seat at the end.
static void like_often(likes::Seat seat, std::uint32_t user) {
    for (std::uint32_t i = 0; i < 100 * (user + 1); i++) {
        while (seat.like(user, i % 2) == LIKES_BETWEEN)
            std::this_thread::yield();
    }
}

// Two threads like, each with its own seat, while phases change.
static void threads() {
    for (int rounds = 0; rounds < 20; rounds++) {
        Two two;
        std::vector<std::thread> all;
        for (std::uint32_t user = 0; user < 2; user++)
            all.emplace_back(like_often, std::move(two.seats[user]), user);
        while (two.driver.turn(LIKES_END_IF_IT_SERVES) != LIKES_ENDED)
            std::this_thread::yield();
        for (std::thread &thread : all)
            thread.join();
        two.last_counts({160, 150});
    }
}

int main() {
    three_phases();
    refusals();
    replaced();
    rows();
    snapshots();
    split_pages();
    again();
    comes_back();
    for (auto before : {like, like_in_split_phase, like_before_end, like_and_answer})
        destroy(before);
    threads();
    std::cout << "all calls answered\n";
}
