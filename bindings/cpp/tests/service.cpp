// Each call of likes::Service, its writers and its held seats, and wrong uses of them: each has to throw likes::Error
// with its status, or to do nothing.
//
// It ends with status 1 and a line where something else happens.
#include <cstdio>
#include "likes.hpp"
#include "tests.hpp"

#include <cstdlib>
#include <cstring>
#include <iostream>
#include <new>
#include <thread>

using namespace std::chrono_literals;

// Two seats and little room.
static likes::Options two_seats(std::uint32_t users) {
    likes::Options options;
    options.users = users;
    options.seats = 2;
    options.room = 4;
    options.hot = likes::no_hot;
    return options;
}

// The same, with a page that is split in every split phase.
static likes::Options marked(std::uint32_t users, std::uint32_t page, std::chrono::microseconds period) {
    likes::Options options = two_seats(users);
    options.marks = {page};
    options.period = period;
    return options;
}

// Every field has a value, whatever was in its memory.
static void fields() {
    alignas(likes::Options) unsigned char memory[sizeof(likes::Options)];
    std::memset(memory, 0xff, sizeof memory);
    likes::Options *options = new (memory) likes::Options;
    hold(options->users == 0 && !options->seats && !options->room && !options->hot && !options->period, "options");
    options->~Options();
    hold(likes::Seen().count == 0 && !likes::Seen().last && !likes::Look().seen && likes::Found().tag == 0, "looks");
    hold(likes::Statistics().likes == 0 && likes::Statistics().wait_time == 0ns, "statistics");
}

static void openings() {
    auto open = [](auto change, std::vector<std::uint64_t> counts) {
        likes::Options options = two_seats(9);
        change(options);
        return thrown([&] { likes::Service service(options, counts); });
    };
    hold(open([](auto &) {}, {}) == LIKES_WRONG_PAGES, "no pages");
    hold(open([](auto &it) { it.period = 0us; }, {0}) == LIKES_WRONG_PERIOD, "a period of 0");
    hold(open([](auto &it) { it.period = -1s; }, {0}) == LIKES_WRONG_PERIOD, "a period below 0");
    hold(open([](auto &it) { it.period = 1001s; }, {0}) == LIKES_WRONG_PERIOD, "a period too long");
    hold(open([](auto &it) { it.seats = 65; }, {0}) == LIKES_WRONG_SEATS, "65 seats");
    hold(open([](auto &it) { it.seats = 0; }, {0}) == LIKES_WRONG_SEATS, "no seats");
    hold(open([](auto &it) { it.room = 0; }, {0}) == LIKES_WRONG_ROOM, "no room");
    hold(open([](auto &it) { it.hot = 0; }, {0}) == LIKES_WRONG_HOT, "hot from no like");
    hold(open([](auto &it) { it.users = 0; }, {0}) == LIKES_WRONG_USERS, "no users");
    hold(open([](auto &it) { it.marks = {2}; }, {5, 7}) == LIKES_WRONG_MARKS, "a wrong mark");
    hold(open([](auto &it) { it.marks.reserve(4); }, {0}) == LIKES_OK, "no marks, in a vector with memory");
    hold(open([](auto &) {}, {0}) == LIKES_OK, "a right opening");
}

// What isn't given has its default: a page that many like is found, and split.
static void defaults() {
    likes::Options options;
    options.users = 100;
    likes::Service service(options, std::vector<std::uint64_t>(100));
    hold(service.seats() >= 16, "the default of seats");
    while (service.split_pages() != std::vector<std::uint32_t>{7})
        for (std::uint32_t user = 0; user < 100; user++)
            service.like(user, 7);
}

// A service that goes on from the last moment of another.
static void again() {
    likes::Service first(two_seats(3), {5, 7});
    first.like(2, 1);
    hold(first.last(2) == 1u && !first.last(0), "last likes");
    hold(thrown([&] { first.last(3); }) == LIKES_UNKNOWN_USER, "the last like of a user too many");
    const std::vector<likes::Last> lasts = {std::nullopt, std::nullopt, 1u};
    hold(first.lasts() == lasts, "all last likes");
    likes::Moment moment = first.snapshot();
    hold(moment.counts == std::vector<std::uint64_t>({5, 8}) && moment.lasts == lasts, "a snapshot");
    std::optional<likes::Seen> look = first.look_within(2, 1, 1s);
    hold(look && look->count == 8 && look->last == 1u, "a look with a deadline");
    hold(thrown([&] { first.look_within(3, 1, 1s); }) == LIKES_UNKNOWN_USER, "a look of a user too many");
    hold(first.statistics().likes == 1 && first.statistics().looks == 1, "the statistics");
    moment = first.stop();
    hold(moment.lasts == lasts, "all last likes after the end");
    likes::Options options = two_seats(3);
    options.lasts = moment.lasts;
    likes::Service second(options, moment.counts);
    likes::Seen seen = second.look(2, 1);
    hold(seen.last == 1u && seen.count == 8, "a look at a service that goes on");
    options.lasts = {0u, 1u};
    hold(thrown([&] { likes::Service service(options, {5, 8}); }) == LIKES_WRONG_LASTS, "last likes of two of three");
}

// A page that is proposed is split after a while, and no other.
static void proposals() {
    likes::Options options = two_seats(9);
    options.period = 100us;
    likes::Service service(options, {5, 7});
    hold(service.split_pages().empty(), "a page is split that nobody proposed");
    for (std::uint32_t page : {1u, 0u}) {
        service.propose({page, 2, UINT32_MAX});
        while (service.split_pages() != std::vector<std::uint32_t>{page})
            std::this_thread::sleep_for(100us);
        service.like(4, page);
    }
    service.propose({});
    hold(service.look(4, 1).count == 8, "a look after a page was split");
    hold(service.stop().counts == std::vector<std::uint64_t>{6, 8}, "final counts of pages that were split");
    hold(thrown([&] { service.propose({1}); }) == LIKES_STOPPED, "a proposal after the end");
    hold(thrown([&] { service.split_pages(); }) == LIKES_STOPPED, "split pages after the end");
}

// A marked page is split in every split phase, which come by themselves. Its counts are those of one moment.
static void marks() {
    likes::Service service(marked(9, 1, 100us), {5, 7});
    hold(service.split_pages() == std::vector<std::uint32_t>{1}, "a marked page isn't split");
    service.like(4, 1);
    while (service.phase() < 4) {
        std::this_thread::sleep_for(100us);
        hold(service.glance(4, 1).seen.last == 1u, "a glance");
    }
    hold(service.counts() == std::vector<std::uint64_t>{5, 8}, "the counts of a moment");
    service.stop();
    hold(thrown([&] { service.counts(); }) == LIKES_STOPPED && service.phase() == 0, "counts after the end");
}

// A look whose answer comes too late is none.
static void deadlines() {
    likes::Options options = marked(9, 1, 100s);
    options.room = 64; // else looks that wait end the phase early
    likes::Service service(options, {5, 7});
    while (service.phase() % 2 == 0)
        service.like(4, 0);
    hold(!service.look_within(4, 1, 1ms) && !service.look_within(4, 1, -1s), "a look that is late");
    hold(service.statistics().late >= 1, "looks that are late");
    hold(service.look_within(4, 0, 0ms).has_value(), "a look that needn't wait");
    likes::Service quick(marked(9, 1, 200us), {5, 7});
    while (quick.statistics().waits == 0)
        hold(quick.look_within(4, 1, std::chrono::hours::max()).has_value(), "a look that may wait for ever");
    hold(quick.look_within(4, 1, 1000000000ns).has_value(), "a limit in nanoseconds");
}

// Threads that serve any user, by writers: each like is counted once, and a look shows what the writer was told before.
static void writers() {
    constexpr std::uint32_t threads = 4, users = 40, each = 20000;
    likes::Service service(marked(users, 0, 200us), {0, 0, 0});
    std::vector<std::thread> all;
    for (std::uint32_t number = 0; number < threads; number++)
        all.emplace_back([&service, number] {
            likes::Writer writer = service.writer();
            for (std::uint32_t i = 0; i < each; i++) {
                std::uint32_t user = (i * 7 + number) % users;
                writer.like(user, i % 3);
                hold(i % 500 != 0 || writer.look(user, 0).last.has_value(), "a look of a writer");
            }
            hold(thrown([&] { writer.like(users, 0); }) == LIKES_UNKNOWN_USER, "a writer's like of a user too many");
            writer.flush();
        });
    for (std::thread &thread : all)
        thread.join();
    std::vector<std::uint64_t> counts = service.counts();
    hold(counts[0] + counts[1] + counts[2] == threads * each, "likes of writers");
    likes::Writer writer = service.writer();
    writer.like(3, 1);
    hold(writer.look(4, 1).count == counts[1] + 1, "a writer's own like, in a look of another seat's user");
    hold(writer.look(3, 1).last == 1u, "a writer's own like");
    hold(thrown([&] { service.stop(); }) == LIKES_OPEN_WRITER, "an end under a writer");
    likes::Writer other = std::move(writer);
    hold(thrown([&] { writer.like(3, 1); }) == LIKES_NOT_STARTED, "a like of a writer that was moved");
    other.like(3, 1);
    hold(other.drop() == 1 && other.drop() == 0, "a like that is dropped");
    other.close();
    hold(thrown([&] { other.flush(); }) == LIKES_NOT_STARTED, "a flush after the end of a writer");
    service.writer().like(3, 1);
    likes::Writer last = service.writer(), next = service.writer();
    last.like(3, 1);
    last = std::move(next); // the first one ends here
    last.close();
    hold(service.stop().counts[1] == counts[1] + 3, "the likes of writers that were destroyed or replaced");
}

// A seat leaves and comes back. Likes of its users stay kept by a writer meanwhile.
static void leaving() {
    likes::Service service(marked(4, 0, 200us), {0, 0});
    likes::Writer writer = service.writer();
    service.retire_seat(1);
    hold(thrown([&] { service.like(1, 0); }) == LIKES_GONE, "a like of a seat that has left");
    writer.like(1, 0);
    writer.like(2, 0);
    hold(thrown([&] { writer.flush(); }) == LIKES_GONE, "a flush to a seat that has left");
    hold(thrown([&] { writer.look(2, 0); }) == LIKES_GONE, "a look of a page of which likes stay kept");
    hold(writer.look(2, 1).count == 0, "a look of another page");
    hold(thrown([&] { writer.close(); }) == LIKES_GONE, "an end of a writer with likes that are kept");
    hold(service.counts()[0] == 1, "a seat that is there counts");
    service.bring_back_seat(1);
    writer.close();
    hold(service.look(1, 0).count == 2, "a seat that came back counts");
    hold(thrown([&] { service.retire_seat(2); }) == LIKES_UNKNOWN_SEAT, "a seat too many leaves");
}

// Only seats 0 and 1 can be held, one by a thread. Other calls of the thread don't wait for itself.
static void seats(likes::Service &service) {
    for (std::uint32_t number : {2u, 15u, 16u, 1000u, UINT32_MAX})
        hold(thrown([&] { (void)service.hold(number); }) == LIKES_UNKNOWN_SEAT, "a seat too many was held");
    for (std::uint32_t number : {0u, 1u}) {
        std::vector<likes_answer> answers;
        likes::Held seat = service.hold(number);
        hold(seat.run({}, answers) == 0 && answers.empty(), "an empty row");
        hold(seat.run({likes_request{}}, answers, 5) == 1, "a row from behind its end");
        hold(!seat.take_found(), "a look was found");
        for (std::uint32_t user : {0u, 1u})
            hold(thrown([&] { service.like(user, 0); }) == LIKES_HOLDS_SEAT, "a like by a thread with a seat");
        hold(thrown([&] { service.look(0, 0); }) == LIKES_HOLDS_SEAT, "a look by a thread with a seat");
        hold(thrown([&] { service.look_within(0, 0, 1s); }) == LIKES_HOLDS_SEAT, "a deadline of a thread with a seat");
        hold(thrown([&] { service.glance(0, 0); }) == LIKES_HOLDS_SEAT, "a glance by a thread with a seat");
        hold(thrown([&] { service.last(0); }) == LIKES_HOLDS_SEAT, "a last like for a thread with a seat");
        hold(thrown([&] { service.lasts(); }) == LIKES_HOLDS_SEAT, "last likes for a thread with a seat");
        hold(thrown([&] { service.counts(); }) == LIKES_HOLDS_SEAT, "counts for a thread with a seat");
        hold(thrown([&] { service.snapshot(); }) == LIKES_HOLDS_SEAT, "a snapshot for a thread with a seat");
        hold(thrown([&] { service.propose({0}); }) == LIKES_HOLDS_SEAT, "a proposal by a thread with a seat");
        hold(thrown([&] { service.split_pages(); }) == LIKES_HOLDS_SEAT, "split pages for a thread with a seat");
        hold(thrown([&] { service.retire_seat(0); }) == LIKES_HOLDS_SEAT, "a thread with a seat retires one");
        hold(thrown([&] { service.bring_back_seat(0); }) == LIKES_HOLDS_SEAT, "a thread with a seat brings one back");
        hold(thrown([&] { service.stop(); }) == LIKES_HOLDS_SEAT, "an end by a thread with a seat");
        hold(thrown([&] { (void)service.hold(1 - number); }) == LIKES_HOLDS_SEAT, "a second seat");
    }
}

// Calls after the end. A second end gives the same moment.
static void late(likes::Service &service) {
    for (int times = 0; times < 3; times++)
        hold(service.stop().counts == std::vector<std::uint64_t>{5, 8}, "other final counts");
    hold(thrown([&] { service.like(4, 0); }) == LIKES_STOPPED, "a like after the end");
    hold(thrown([&] { service.look(4, 0); }) == LIKES_STOPPED, "a look after the end");
    hold(thrown([&] { service.look_within(4, 0, 1s); }) == LIKES_STOPPED, "a deadline after the end");
    hold(thrown([&] { service.glance(4, 0); }) == LIKES_STOPPED, "a glance after the end");
    hold(thrown([&] { service.last(4); }) == LIKES_STOPPED, "a last like after the end");
    hold(thrown([&] { service.lasts(); }) == LIKES_STOPPED, "last likes after the end");
    hold(thrown([&] { service.retire_seat(0); }) == LIKES_STOPPED, "a seat that retires after the end");
    hold(thrown([&] { service.bring_back_seat(0); }) == LIKES_STOPPED, "a seat that is brought back after the end");
    hold(thrown([&] { (void)service.hold(0); }) == LIKES_STOPPED, "a seat after the end");
    hold(thrown([&] { (void)service.writer(); }) == LIKES_STOPPED, "a writer after the end");
    hold(thrown([&] { service.snapshot(); }) == LIKES_STOPPED, "a snapshot after the end");
    hold(service.statistics().likes == 1, "statistics after the end");
    service.tick();
    hold(service.phase() == 0 && service.seats() == 2, "a phase and seats after the end");
    hold(thrown([&] { service.save("likes.saved"); }) == LIKES_STOPPED, "a file after the end");
}

// A file of a service, from which another goes on, also with more pages and users.
static void files() {
    const std::string path = "likes.saved";
    likes::Service first(two_seats(3), {5, 7});
    first.like(2, 1);
    first.save(path);
    likes::Service same(path, two_seats(0)), grown(path, two_seats(4), 3);
    hold(same.counts() == std::vector<std::uint64_t>({5, 8}) && same.last(2) == 1u, "a service from a file");
    hold(grown.counts() == std::vector<std::uint64_t>({5, 8, 0}) && !grown.last(3), "a larger service from a file");
    hold(thrown([&] { likes::Service less(path, two_seats(1)); }) == LIKES_WRONG_LENGTH, "fewer users than in a file");
    const std::string cut = path + std::string("\0?", 2);
    hold(thrown([&] { likes::Service none(cut, two_seats(0)); }) == LIKES_FILE_FAULT, "a path with a byte 0");
    hold(thrown([&] { same.save(cut); }) == LIKES_FILE_FAULT, "a file at a path with a byte 0");
    std::remove(path.c_str());
    hold(thrown([&] { likes::Service none(path, two_seats(0)); }) == LIKES_FILE_FAULT, "no file");
}

int main() {
    fields();
    openings();
    defaults();
    again();
    files();
    proposals();
    marks();
    deadlines();
    writers();
    leaving();
    likes::Service service(two_seats(9), {5, 7});
    service.like(4, 1);
    hold(thrown([&] { service.like(9, 1); }) == LIKES_UNKNOWN_USER, "a user too many");
    hold(thrown([&] { service.look(4, 2); }) == LIKES_UNKNOWN_PAGE, "a page too many");
    seats(service);
    late(service);
    std::cout << "all calls answered\n";
}
