// The driver, the seats and the phase of likes.h as C++17 classes, which free themselves. Nothing here is proved.
//
// An outcome of likes.h is returned, and an error is thrown as likes::Error. One call at a time is made on each object,
// as in C.
#pragma once

#include <likes.h>

#include <algorithm>
#include <chrono>
#include <cstdint>
#include <memory>
#include <mutex>
#include <optional>
#include <stdexcept>
#include <utility>
#include <vector>

namespace likes {

struct Error : std::runtime_error {
    explicit Error(std::uint32_t why) : std::runtime_error(likes_status_text(why)), status(why) {}
    std::uint32_t status;
};

// The outcome that a status is. An error is thrown.
inline likes_status outcome(std::uint32_t status) {
    if (status >= LIKES_FIRST_ERROR)
        throw Error(status);
    return static_cast<likes_status>(status);
}

// The page of a user's last like, if there is one.
using Last = std::optional<std::uint32_t>;

inline Last last_of(std::uint32_t page) {
    return page == LIKES_NO_PAGE ? std::nullopt : Last(page);
}

inline std::vector<Last> lasts_of(const std::vector<std::uint32_t> &pages) {
    std::vector<Last> made;
    made.reserve(pages.size());
    for (std::uint32_t page : pages)
        made.push_back(last_of(page));
    return made;
}

// Instead of Options::hot: the library finds no hot pages.
inline constexpr std::uint32_t no_hot = LIKES_NO_HOT;

// What a service is opened with. What isn't given has the default of likes.h.
struct Options {
    std::uint32_t users = 0;                               // how many: 1 or more
    std::optional<std::uint32_t> seats = {};               // by default 16 for each processor, and at most 64
    std::optional<std::uint32_t> room = {};                // how many looks a seat keeps: 64
    std::optional<std::uint32_t> hot = {};                 // about how many likes make a page hot: 512. Or no_hot
    std::optional<std::chrono::microseconds> period = {};  // of a Service, between ends of split phases: 1 ms
    std::vector<std::uint32_t> marks = {};                 // pages that are split in every split phase
    std::vector<Last> lasts = {};                          // each user's last like. Empty: nobody has one
};

// Options and counts as C takes them. It points into these two.
class Opening {
public:
    Opening(const Options &options, const std::vector<std::uint64_t> &counts) {
        for (const Last &last : options.lasts)
            lasts_.push_back(last.value_or(LIKES_NO_PAGE));
        numbers_.counts = counts.data();
        numbers_.pages = counts.size();
        numbers_.marks = data(options.marks);
        numbers_.marks_len = options.marks.size();
        numbers_.lasts = data(lasts_);
        numbers_.lasts_len = lasts_.size();
        numbers_.users = options.users;
        numbers_.seats = given(options.seats);
        numbers_.room = given(options.room);
        // A wrong number in place of 0, but not no_hot.
        numbers_.hot = options.hot == 0u ? no_hot - 1 : options.hot.value_or(0);
        numbers_.period_us = microseconds(options.period);
    }
    Opening(const Opening &) = delete;
    Opening &operator=(const Opening &) = delete;

    const likes_options *numbers() const { return &numbers_; }

private:
    // In C, an array without a length is refused, and a vector of no entries may have memory.
    static const std::uint32_t *data(const std::vector<std::uint32_t> &pages) {
        return pages.empty() ? nullptr : pages.data();
    }

    // In C, 0 is the default, and here it is a wrong number.
    static std::uint32_t given(std::optional<std::uint32_t> number) {
        return number == 0u ? UINT32_MAX : number.value_or(0);
    }

    static std::uint32_t microseconds(std::optional<std::chrono::microseconds> period) {
        if (!period)
            return 0;
        bool is_right = period->count() > 0 && period->count() <= LIKES_MAX_PERIOD_US;
        return is_right ? static_cast<std::uint32_t>(period->count()) : UINT32_MAX;
    }

    std::vector<std::uint32_t> lasts_;
    likes_options numbers_ = {};
};

// What a look shows: the user's last like, and the count of the page looked at.
struct Seen {
    Last last = {};
    std::uint64_t count = 0;
};

// What an answer of LIKES_SEEN or LIKES_GLIMPSED shows.
inline std::optional<Seen> seen(const likes_answer &answer) {
    bool is_shown = answer.status == LIKES_SEEN || answer.status == LIKES_GLIMPSED;
    return is_shown ? std::optional<Seen>({last_of(answer.last), answer.count}) : std::nullopt;
}

// What a look or a glance did, and of LIKES_SEEN and LIKES_GLIMPSED what it shows.
struct Look {
    likes_status outcome = LIKES_OK;
    std::optional<Seen> seen = {};
};

// A look that had to wait: the phases in which it was asked and in which it ran, and what it shows.
struct Found {
    std::uint64_t tag = 0, asked = 0, ran = 0;
    std::uint32_t user = 0, page = 0;
    Seen seen = {};
};

inline Found found_of(const likes_found &it) {
    return {it.tag, it.asked, it.ran, it.user, it.page, {last_of(it.last), it.count}};
}

// Seats that were destroyed before they could retire. The driver's turns have them retire.
class Leaving {
public:
    Leaving() { seats_.reserve(LIKES_MAX_SEATS); }
    ~Leaving() {
        for (likes_seat &seat : seats_)
            likes_seat_free(&seat);
    }
    Leaving(const Leaving &) = delete;
    Leaving &operator=(const Leaving &) = delete;

    // Has a seat retire now, or takes it.
    void add(likes_seat seat) {
        if (likes_seat_retire(&seat) == LIKES_GONE) {
            likes_seat_free(&seat);
        } else {
            std::lock_guard<std::mutex> lock(mutex_);
            seats_.push_back(seat);
        }
    }

    void retire() {
        std::lock_guard<std::mutex> lock(mutex_);
        for (likes_seat &seat : seats_) {
            if (likes_seat_retire(&seat) == LIKES_GONE)
                likes_seat_free(&seat);
        }
    }

private:
    std::mutex mutex_;
    std::vector<likes_seat> seats_; // empty handles are of those that have left
};

// A worker. While a phase is ending, each seat that isn't gone is called, by turn() if there is nothing else to do: a
// seat that isn't called holds up all others.
//
// A seat that is destroyed retires, and its destructor waits for no phase: where the seat can't retire at once, the
// driver's turns have it retire. Found looks that were not taken are lost.
class Seat {
public:
    ~Seat() {
        if (handle_.at != nullptr)
            leaving_->add(handle_);
    }
    Seat(Seat &&other) noexcept : handle_(std::exchange(other.handle_, {})), leaving_(other.leaving_) {}
    Seat &operator=(Seat other) noexcept {
        std::swap(handle_, other.handle_);
        std::swap(leaving_, other.leaving_);
        return *this;
    }

    // Adds one like: LIKES_LIKED, BETWEEN, LIKE_LIMIT or GONE.
    likes_status like(std::uint32_t user, std::uint32_t page) { return outcome(likes_seat_like(&handle_, user, page)); }

    // LIKES_SEEN, WAITS, BETWEEN, NO_ROOM or GONE.
    Look look(std::uint32_t user, std::uint32_t page, std::uint64_t tag) {
        likes_answer answer = {};
        likes_seat_look(&handle_, user, page, tag, &answer);
        return {outcome(answer.status), seen(answer)};
    }

    // Looks at once: LIKES_SEEN, with the exact count; GLIMPSED, of a page that is split, whose count may lack other
    // seats' likes of the present phase; BETWEEN or GONE.
    Look glance(std::uint32_t user, std::uint32_t page) {
        likes_answer answer = {};
        likes_seat_glance(&handle_, user, page, &answer);
        return {outcome(answer.status), seen(answer)};
    }

    // Runs a row of requests from one on, and gives how many are done then. It stops before the first that is
    // LIKES_BETWEEN or LIKES_NO_ROOM. An answer may have the status of an error.
    std::size_t run(const std::vector<likes_request> &requests, std::vector<likes_answer> &answers,
                    std::size_t from = 0) {
        answers.resize(requests.size());
        if (from >= requests.size())
            return requests.size();
        return from + likes_seat_run(&handle_, requests.data() + from, requests.size() - from, answers.data() + from,
                                     answers.size() - from);
    }

    // The next found look, in the order of asking.
    std::optional<Found> take_found() {
        likes_found found;
        return likes_seat_take_found(&handle_, &found) ? std::optional<Found>(found_of(found)) : std::nullopt;
    }

    Last last(std::uint32_t user) {
        std::uint32_t page = LIKES_NO_PAGE;
        outcome(likes_seat_last(&handle_, user, &page));
        return last_of(page);
    }

    // The last likes of the seat's users number from, from + 1 and so on.
    std::vector<Last> lasts(std::uint32_t from, std::size_t length) {
        std::vector<std::uint32_t> pages(length);
        outcome(likes_seat_lasts(&handle_, from, pages.data(), pages.size()));
        return lasts_of(pages);
    }

    // Does what the phase asks of the seat: LIKES_RUNS, BETWEEN or GONE.
    likes_status turn() { return outcome(likes_seat_turn(&handle_)); }

    // Leaves, where the seat runs a joined phase: LIKES_GONE. Else it is turn().
    likes_status retire() { return outcome(likes_seat_retire(&handle_)); }

    // Brings a seat back that is gone: LIKES_RUNS, or LIKES_BETWEEN where the phase is ending. Of any other seat it is
    // turn().
    likes_status come_back() { return outcome(likes_seat_come_back(&handle_)); }

    // The phase that the seat runs or has answered last, and 0 once it is gone.
    std::uint64_t phase() { return likes_seat_phase(&handle_); }

private:
    friend class Driver;
    Seat(likes_seat handle, std::shared_ptr<Leaving> leaving) : handle_(handle), leaving_(std::move(leaving)) {}

    likes_seat handle_ = {};
    std::shared_ptr<Leaving> leaving_;
};

// The phase that a driver has last released, for another thread.
class Phase {
public:
    ~Phase() { likes_phase_free(&handle_); }
    Phase(Phase &&other) noexcept : handle_(std::exchange(other.handle_, {})) {}
    Phase &operator=(Phase other) noexcept {
        std::swap(handle_, other.handle_);
        return *this;
    }

    std::uint64_t now() { return likes_phase_now(&handle_); }

private:
    friend class Driver;
    explicit Phase(likes_phase handle) : handle_(handle) {}

    likes_phase handle_ = {};
};

// The coordinator of a service, which it opens. If it is destroyed, its seats stay in the phase that they run.
class Driver {
public:
    Driver(const Options &options, const std::vector<std::uint64_t> &counts) : leaving_(std::make_shared<Leaving>()) {
        outcome(likes_open(Opening(options, counts).numbers(), &handle_));
    }
    ~Driver() { likes_driver_free(&handle_); }
    Driver(Driver &&other) noexcept : handle_(std::exchange(other.handle_, {})), leaving_(other.leaving_) {}
    Driver &operator=(Driver other) noexcept {
        std::swap(handle_, other.handle_);
        std::swap(leaving_, other.leaving_);
        return *this;
    }

    // The next seat, or none if all are taken. A phase changes only when every seat has answered, so take them all.
    std::optional<Seat> take_seat() {
        likes_seat seat = {};
        if (outcome(likes_driver_take_seat(&handle_, &seat)) != LIKES_OK)
            return std::nullopt;
        return Seat(seat, leaving_);
    }

    // The phase, once.
    std::optional<Phase> take_phase() {
        likes_phase phase = {};
        if (outcome(likes_driver_take_phase(&handle_, &phase)) != LIKES_OK)
            return std::nullopt;
        return Phase(phase);
    }

    // At most one thing for the phases: LIKES_GOES_ON, ANNOUNCED, NOT_ALL_IN, RELEASED or ENDED. Before it, seats that
    // were destroyed retire.
    likes_status turn(likes_end end = LIKES_NO_END) {
        leaving_->retire();
        return outcome(likes_driver_turn(&handle_, end));
    }

    // Writes the counts of the pages from, from + 1 and so on, as many as the vector has, at the end of a joined phase
    // that every seat has answered: LIKES_COUNTED. Or LIKES_NO_MOMENT.
    likes_status snapshot(std::uint32_t from, std::vector<std::uint64_t> &counts) {
        return outcome(likes_driver_snapshot(&handle_, from, counts.data(), counts.size()));
    }

    // Writes the final counts of the pages from, from + 1 and so on, where all seats are gone: LIKES_COUNTED. Or
    // LIKES_NOT_ENDED: make turns with LIKES_END_IF_IT_SERVES until LIKES_ENDED, and try again.
    likes_status last_counts(std::uint32_t from, std::vector<std::uint64_t> &counts) {
        return outcome(likes_driver_last_counts(&handle_, from, counts.data(), counts.size()));
    }

    // The pages that are split in the present split phase, or were in the last one.
    std::vector<std::uint32_t> split_pages(std::size_t most = LIKES_MAX_SPLIT) {
        std::vector<std::uint32_t> pages(std::min<std::size_t>(most, LIKES_MAX_SPLIT));
        pages.resize(likes_driver_split_pages(&handle_, pages.data(), pages.size()));
        return pages;
    }

    // Proposes pages to be split, the first 64, in place of those that the library finds by itself. If there are none,
    // it finds them again.
    void propose(const std::vector<std::uint32_t> &pages) {
        outcome(likes_driver_propose(&handle_, pages.data(), pages.size()));
    }

    // The present phase. Phases with odd numbers are split.
    std::uint64_t phase() { return likes_driver_phase(&handle_); }

private:
    likes_driver handle_ = {};
    std::shared_ptr<Leaving> leaving_;
};

} // namespace likes
