// The live core as C++17 classes. Nothing here is proved. Service calls likes_service.h, and likes_core.hpp has the
// classes of a program that changes phases by itself.
//
// What a call of likes_service.h refuses is thrown as likes::Error, with its status. A thread that holds a seat of the
// service waits for nobody: a call that could wait for a seat throws LIKES_HOLDS_SEAT.
#pragma once

#include <likes_service.h>

#include <algorithm>
#include <cerrno>
#include <string>

#include "likes_core.hpp"

namespace likes {

// Throws a status that isn't the wanted one.
inline void expect(std::uint32_t status, std::uint32_t wanted) {
    if (status != wanted)
        throw Error(status);
}

// A path for C, which would take what is before a byte 0 for the whole of it.
inline const char *path_of(const std::string &path) {
    if (path.find('\0') != std::string::npos) {
        errno = EINVAL;
        throw Error(LIKES_FILE_FAULT);
    }
    return path.c_str();
}

// A seat of a service that this thread holds, until the end of the scope. It waits for nothing meanwhile.
class [[nodiscard]] Held {
public:
    Held(likes_service *service, std::uint32_t number) : service_(service), number_(number) {
        if (likes_service_lock(service, number) == nullptr) {
            std::uint32_t why = likes_service_seat_fault(service, number);
            // Where nothing is wrong with the seat, there is no memory for the thread.
            throw Error(why == LIKES_OK ? std::uint32_t{LIKES_NO_MEMORY} : why);
        }
    }
    ~Held() { likes_service_unlock(service_, number_); }
    Held(const Held &) = delete;
    Held &operator=(const Held &) = delete;

    // Runs a row of requests, and gives how many were done: all, or those before a look without room. Tags of looks are
    // below 2^63.
    std::size_t run(const std::vector<likes_request> &requests, std::vector<likes_answer> &answers,
                    std::size_t from = 0) {
        answers.resize(requests.size());
        if (from >= requests.size())
            return requests.size();
        return from + likes_service_run(service_, number_, requests.data() + from, requests.size() - from,
                                        answers.data() + from);
    }

    // The next found look of such a row, in the order of asking.
    std::optional<Found> take_found() {
        likes_found found;
        bool is_found = likes_service_take_found(service_, number_, &found);
        return is_found ? std::optional<Found>(found_of(found)) : std::nullopt;
    }

    // Lets a phase end that is due, so that there is room again.
    void drive() { likes_service_drive(service_); }

private:
    likes_service *service_;
    std::uint32_t number_;
};

// The counts of all pages and all last likes, by user number, at one moment. With them, another service goes on.
struct Moment {
    std::vector<std::uint64_t> counts = {};
    std::vector<Last> lasts = {};
};

// What a glance shows, and whether its count is exact.
struct Shown {
    Seen seen = {};
    bool is_exact = false;
};

// What a service has done so far.
struct Statistics {
    std::uint64_t phases = 0; // how many have ended
    std::uint64_t likes = 0;  // how many were counted
    std::uint64_t looks = 0;  // how many single ones were answered
    std::uint64_t waits = 0;  // how many of these looks had to wait
    std::uint64_t late = 0;   // how many had no answer in time
    std::chrono::nanoseconds wait_time = {};    // how long looks waited in all
    std::chrono::nanoseconds longest_wait = {}; // and one of them at most
};

// Likes at full speed, of one thread at a time: it keeps them in rows, and hands a row over as a whole. Others see a
// like once its row is full, by a call about a period after the row was begun, or by flush(), look() and close(). Without
// calls there is no bound in time, so a thread flushes before it rests. A writer is destroyed before its service.
class [[nodiscard]] Writer {
public:
    explicit Writer(likes_service *service) { expect(likes_writer_open(service, &writer_), LIKES_OK); }

    // It is flushed. Likes for a seat that has left are forgotten, and all if the thread holds a seat: close() tells of
    // them.
    ~Writer() {
        if (likes_writer_close(writer_) == LIKES_OK)
            return;
        likes_writer_drop(writer_);
        likes_writer_close(writer_);
    }
    Writer(Writer &&other) noexcept : writer_(std::exchange(other.writer_, nullptr)) {}
    Writer &operator=(Writer other) noexcept {
        std::swap(writer_, other.writer_);
        return *this;
    }

    void like(std::uint32_t user, std::uint32_t page) { expect(likes_writer_like(writer_, user, page), LIKES_OK); }

    // Hands over the likes of the user's seat and all rows with likes of the page, and looks. So it shows all that this
    // writer was told before. Where likes that it would show stay kept, it throws LIKES_GONE.
    Seen look(std::uint32_t user, std::uint32_t page) {
        likes_answer answer = {};
        expect(likes_writer_look(writer_, user, page, &answer), LIKES_SEEN);
        return *seen(answer);
    }

    // Hands over all likes: now each is counted. Those of a seat that has left stay kept, and LIKES_GONE is thrown.
    void flush() { expect(likes_writer_flush(writer_), LIKES_OK); }

    // Forgets the likes that are kept, and gives their number.
    std::size_t drop() { return likes_writer_drop(writer_); }

    // Flushes, and ends the writer. Where flush() throws, so does this, and the writer stays open.
    void close() {
        expect(likes_writer_close(writer_), LIKES_OK);
        writer_ = nullptr;
    }

private:
    likes_writer *writer_ = nullptr;
};

// A service with its driver's thread. Threads share it; the destructor ends it.
class Service {
public:
    Service(const Options &options, const std::vector<std::uint64_t> &counts)
        : pages_(counts.size()), users_(options.users) {
        expect(likes_service_open(Opening(options, counts).numbers(), &service_), LIKES_OK);
        seats_ = likes_service_seats(service_);
    }
    // One that goes on from a file that save() has written, with as many users and pages or more: 0 is as many. Options
    // have no last likes. What is wrong with the file is thrown, and what the system says is in errno.
    Service(const std::string &path, const Options &options, std::size_t pages = 0) {
        const Opening opening(options, {});
        likes_options numbers = *opening.numbers();
        numbers.counts = nullptr;
        numbers.pages = pages;
        expect(likes_service_load(path_of(path), &numbers, &service_), LIKES_OK);
        pages_ = likes_service_pages(service_);
        users_ = likes_service_users(service_);
        seats_ = likes_service_seats(service_);
    }
    ~Service() { likes_service_close(service_); }
    Service(const Service &) = delete;
    Service &operator=(const Service &) = delete;

    void like(std::uint32_t user, std::uint32_t page) {
        expect(likes_service_like(service_, user, page), LIKES_LIKED);
    }

    // The exact count. It may wait for about a phase.
    Seen look(std::uint32_t user, std::uint32_t page) {
        likes_answer answer = {};
        expect(likes_service_look(service_, user, page, &answer), LIKES_SEEN);
        return *seen(answer);
    }

    // The exact count, or no answer if that takes longer. A double holds any duration.
    std::optional<Seen> look_within(std::uint32_t user, std::uint32_t page,
                                    std::chrono::duration<double, std::micro> time) {
        likes_answer answer = {};
        auto limit = time.count() > 0 ? std::min(time.count(), double{UINT32_MAX}) : 0;
        auto status = likes_service_look_within(service_, user, page, static_cast<std::uint32_t>(limit), &answer);
        if (status != LIKES_LATE)
            expect(status, LIKES_SEEN);
        return seen(answer);
    }

    // A count at once. If the page is split, it may lack other seats' likes of the present phase, and isn't exact.
    Shown glance(std::uint32_t user, std::uint32_t page) {
        likes_answer answer = {};
        auto status = likes_service_glance(service_, user, page, &answer);
        if (status != LIKES_GLIMPSED)
            expect(status, LIKES_SEEN);
        return {*seen(answer), status == LIKES_SEEN};
    }

    // A thread's likes at full speed.
    Writer writer() { return Writer(service_); }

    Last last(std::uint32_t user) {
        std::uint32_t page = LIKES_NO_PAGE;
        expect(likes_service_last(service_, user, &page), LIKES_OK);
        return last_of(page);
    }

    // Each user's last like. Those of one seat are of one moment.
    std::vector<Last> lasts() {
        std::vector<std::uint32_t> now(users_);
        expect(likes_service_lasts(service_, now.data(), now.size()), LIKES_OK);
        return lasts_of(now);
    }

    // The counts of all pages at one moment, the end of a joined phase.
    std::vector<std::uint64_t> counts() {
        std::vector<std::uint64_t> now(pages_);
        expect(likes_service_counts(service_, now.data(), now.size()), LIKES_COUNTED);
        return now;
    }

    // The counts of all pages and all last likes at one moment. Likes and looks wait meanwhile.
    Moment snapshot() {
        std::vector<std::uint64_t> counts(pages_);
        std::vector<std::uint32_t> lasts(users_);
        expect(likes_service_snapshot(service_, counts.data(), counts.size(), lasts.data(), lasts.size()),
               LIKES_COUNTED);
        return {std::move(counts), lasts_of(lasts)};
    }

    // Saves such a moment to a file. After a crash there is the old file or the new one.
    void save(const std::string &path) { expect(likes_service_save(service_, path_of(path)), LIKES_OK); }

    Statistics statistics() {
        likes_statistics told;
        expect(likes_service_statistics(service_, &told), LIKES_OK);
        using time = std::chrono::nanoseconds;
        return {told.phases,
                told.likes,
                told.looks,
                told.waits,
                told.late,
                time(static_cast<time::rep>(told.wait_time)),
                time(static_cast<time::rep>(told.longest_wait))};
    }

    // Proposes pages to be split, the first 64, in place of those that the service finds by itself. If there are none,
    // it finds them again.
    void propose(const std::vector<std::uint32_t> &pages) {
        expect(likes_service_propose(service_, pages.data(), pages.size()), LIKES_OK);
    }

    // The pages that are split in the present split phase, or were in the last one.
    std::vector<std::uint32_t> split_pages() {
        // Their call in C has no status: where it is refused, it gives no pages.
        expect(likes_service_seat_fault(service_, 0), LIKES_OK);
        std::vector<std::uint32_t> pages(LIKES_MAX_SPLIT);
        pages.resize(likes_service_split_pages(service_, pages.data(), pages.size()));
        return pages;
    }

    // The phase that was last released, and 0 after the end.
    std::uint64_t phase() { return likes_service_phase(service_); }

    // User u belongs to seat u % seats().
    std::uint32_t seats() const { return seats_; }

    // A seat below seats().
    Held hold(std::uint32_t number) { return Held(service_, number); }

    // A busy thread may call it once in some 256 requests: then no phase waits until the driver's thread gets a
    // processor.
    void tick() { likes_service_tick(service_); }

    // Has a seat leave, and come back. Meanwhile likes and looks of its users throw LIKES_GONE.
    void retire_seat(std::uint32_t number) { expect(likes_service_retire_seat(service_, number), LIKES_OK); }
    void bring_back_seat(std::uint32_t number) { expect(likes_service_bring_back_seat(service_, number), LIKES_OK); }

    // Ends the service, and gives its last moment, each time the same. All threads are done with it. Later calls throw
    // LIKES_STOPPED, but for tick, phase, seats and statistics. Where a writer is open, it throws LIKES_OPEN_WRITER,
    // and nothing is done.
    Moment stop() {
        if (!end_) {
            std::vector<std::uint64_t> counts(pages_);
            expect(likes_service_retire(service_), LIKES_OK);
            std::vector<Last> last = lasts();
            expect(likes_service_stop(service_, counts.data(), counts.size()), LIKES_OK);
            end_ = Moment{std::move(counts), std::move(last)};
        }
        return *end_;
    }

private:
    likes_service *service_ = nullptr;
    std::size_t pages_ = 0, users_ = 0;
    std::uint32_t seats_ = 0;
    std::optional<Moment> end_ = {};
};

} // namespace likes
