// Makes the calls that README.md draws, by likes.hpp, and prints what each answers.
#include "likes.hpp"

#include <iostream>
#include <string>

constexpr int services = 300, calls = 400, shared_services = 100, shared_calls = 100;

static std::uint64_t state = 1;

static std::uint64_t next() {
    return state = state * 6364136223846793005u + 1442695040888963407u;
}

static std::uint32_t draw(std::uint32_t below) {
    auto drawn = static_cast<std::uint32_t>(next() >> 33);
    return below == 0 ? 0 : drawn % below;
}

static bool rarely() {
    return draw(32) == 0;
}

static std::uint32_t draw_page(std::uint32_t pages) {
    return rarely() ? pages + draw(3) : draw(pages);
}

static std::string text(std::optional<std::uint32_t> last) {
    return last ? " " + std::to_string(*last) : " -";
}

static std::string text(likes_status status) {
    return likes_status_text(status);
}

static std::string text(const likes::Look &look) {
    std::string shown = text(look.outcome);
    return look.seen ? shown + text(look.seen->last) + " " + std::to_string(look.seen->count) : shown;
}

static std::string text(const std::vector<likes::Last> &lasts) {
    std::string all = "ok";
    for (likes::Last last : lasts)
        all += text(last);
    return all;
}

// Prints what a call answers, or its error.
template <typename Call> static void say(const char *name, Call answer) {
    try {
        std::string told = answer();
        std::cout << name << " " << told << "\n";
    } catch (const likes::Error &error) {
        std::cout << name << " " << error.what() << "\n";
    }
}

// A service with its seats.
struct Service {
    likes::Options options;
    std::uint32_t pages;
    likes::Driver driver;
    std::vector<likes::Seat> seats = {};
    std::optional<likes::Phase> phase = {};

    std::uint32_t draw_user(std::uint32_t seat) const {
        if (rarely())
            return draw(2) == 0 ? options.users + draw(3) : UINT32_MAX;
        std::uint32_t user = draw(options.users);
        return draw(8) == 0 ? user : user - user % *options.seats + seat;
    }

    void take_all() {
        for (std::uint32_t i = 0; i <= *options.seats; i++) {
            auto seat = driver.take_seat();
            std::cout << "seat " << text(seat ? LIKES_OK : LIKES_ALL_TAKEN) << "\n";
            if (seat)
                seats.push_back(std::move(*seat));
        }
        phase = driver.take_phase();
        std::cout << "phase " << text(phase ? LIKES_OK : LIKES_ALL_TAKEN) << "\n";
        std::cout << "phase " << text(driver.take_phase() ? LIKES_OK : LIKES_ALL_TAKEN) << "\n";
    }

    void like_or_look(std::uint32_t number, std::uint32_t kind) {
        likes::Seat &seat = seats[number];
        std::uint32_t user = draw_user(number), page = draw_page(pages);
        if (kind < 6)
            say("like", [&] { return text(seat.like(user, page)); });
        else if (kind < 8)
            say("look", [&] { return text(seat.look(user, page, next())); });
        else
            say("glance", [&] { return text(seat.glance(user, page)); });
    }

    void run_row(std::uint32_t number) {
        std::vector<likes_request> row(draw(5));
        std::vector<likes_answer> answers;
        for (std::size_t i = 0; i < row.size(); i++) {
            row[i].tag = i;
            row[i].op = draw(3);
            row[i].user = draw_user(number);
            row[i].page = draw_page(pages);
        }
        std::size_t done = seats[number].run(row, answers);
        std::cout << "run";
        for (std::size_t i = 0; i < row.size() && i <= done; i++)
            std::cout << (i == 0 ? " " : ", ")
                      << text(likes::Look{static_cast<likes_status>(answers[i].status), likes::seen(answers[i])});
        std::cout << "\n";
    }

    void take_found(likes::Seat &seat) {
        auto found = seat.take_found();
        if (!found) {
            std::cout << "none\n";
            return;
        }
        std::cout << "found " << found->tag << " " << found->seen.count << " " << found->asked << " " << found->ran
                  << " " << found->user << " " << found->page << text(found->seen.last) << "\n";
    }

    void tell_lasts(std::uint32_t number, bool is_one) {
        if (is_one) {
            std::uint32_t user = draw_user(number);
            say("lasts", [&] { return "ok" + text(seats[number].last(user)); });
        } else {
            std::uint32_t from = draw(5), length = draw(5);
            write_lasts(number, from, length);
        }
    }

    void write_lasts(std::uint32_t number, std::uint32_t from, std::uint32_t length) {
        say("lasts", [&] { return text(seats[number].lasts(from, length)); });
    }

    void write_counts(bool is_snapshot, std::uint32_t from, std::uint32_t length) {
        std::vector<std::uint64_t> counts(length);
        say(is_snapshot ? "snapshot" : "counts", [&] {
            likes_status status = is_snapshot ? driver.snapshot(from, counts) : driver.last_counts(from, counts);
            std::string all = text(status);
            for (std::size_t i = 0; status == LIKES_COUNTED && i < counts.size(); i++)
                all += " " + std::to_string(counts[i]);
            return all;
        });
    }

    void propose() {
        std::vector<std::uint32_t> proposed(draw(3));
        for (std::uint32_t &page : proposed)
            page = draw_page(pages);
        say("propose", [&] { return driver.propose(proposed), text(LIKES_OK); });
    }

    void tell_split_pages() {
        std::cout << "split";
        for (std::uint32_t page : driver.split_pages(draw(4)))
            std::cout << " " << page;
        std::cout << "\n";
    }

    // One of the calls that come less often.
    void call_other(likes::Seat &seat) {
        switch (draw(7)) {
        case 0:
            return propose();
        case 1:
            return tell_split_pages();
        case 2:
            return say("phase", [&] { return std::to_string(seat.phase()); });
        case 3:
            return say("phase", [&] { return std::to_string(driver.phase()); });
        case 4:
            return say("phase", [&] { return std::to_string(phase->now()); });
        case 5:
            if (draw(4) == 0)
                say("retire", [&] { return text(seat.retire()); });
            else
                std::cout << "\n";
            return;
        default:
            say("come back", [&] { return text(seat.come_back()); });
        }
    }

    void call() {
        std::uint32_t number = draw(*options.seats), kind = draw(20);
        if (kind < 9) {
            like_or_look(number, kind);
        } else if (kind == 9) {
            run_row(number);
        } else if (kind == 10) {
            take_found(seats[number]);
        } else if (kind < 13) {
            tell_lasts(number, kind == 11);
        } else if (kind < 15) {
            say("turn", [&] { return text(seats[number].turn()); });
        } else if (kind < 17) {
            say("driver", [&] { return text(driver.turn(static_cast<likes_end>(draw(3)))); });
        } else if (kind < 19) {
            std::uint32_t from = draw(pages + 1), length = draw(pages + 1);
            write_counts(kind == 17, from, length);
        } else {
            call_other(seats[number]);
        }
    }

    void end() {
        likes_status status;
        do {
            for (likes::Seat &seat : seats)
                say("retire", [&] { return text(seat.retire()); });
            status = driver.turn(LIKES_END_IF_IT_SERVES);
            std::cout << "driver " << text(status) << "\n";
        } while (status != LIKES_ENDED);
        write_counts(false, 0, pages);
        for (std::uint32_t i = 0; i < *options.seats; i++)
            write_lasts(i, 0, (options.users + *options.seats - 1 - i) / *options.seats);
    }
};

// What a service is opened with.
static std::vector<std::uint64_t> draw_opening(likes::Options &options) {
    std::uint32_t pages = rarely() ? 0 : 1 + draw(6);
    std::vector<std::uint64_t> counts(pages);
    for (std::uint64_t &count : counts)
        count = draw(100);
    if (rarely() && pages > 0)
        counts[0] = LIKES_MAX_COUNT + 1;
    options.seats = rarely() ? 65 + draw(2) : 1 + draw(3);
    options.users = rarely() ? 0 : 1 + draw(12);
    options.room = rarely() ? LIKES_MAX_ROOM + 1 : 1 + draw(3);
    options.hot = rarely() ? LIKES_MAX_HOT + 1 : draw(2) == 0 ? likes::no_hot : 512;
    options.marks.resize(draw(3));
    for (std::uint32_t &mark : options.marks)
        mark = draw_page(pages);
    if (draw(3) != 0)
        options.lasts.resize(options.users + rarely());
    for (likes::Last &last : options.lasts)
        last = draw(2) == 0 ? likes::Last() : draw_page(pages);
    return counts;
}

// A service that threads share.
struct Shared {
    std::uint32_t users, pages, seats;
    likes::Service &service;

    std::uint32_t draw_user() const {
        if (rarely())
            return draw(2) == 0 ? users + draw(3) : UINT32_MAX;
        return draw(users);
    }

    static std::string shown(const likes::Seen &seen) { return text(seen.last) + " " + std::to_string(seen.count); }

    static std::string listed(const std::vector<std::uint64_t> &counts) {
        std::string all;
        for (std::uint64_t count : counts)
            all += " " + std::to_string(count);
        return all;
    }

    static std::string listed(const std::vector<likes::Last> &lasts) {
        std::string all;
        for (likes::Last last : lasts)
            all += text(last);
        return all;
    }

    // Prints what a call answers behind its name, or its error.
    template <typename Call> static void tell(const char *name, Call answer) {
        try {
            std::string told = answer();
            std::cout << name << told << "\n";
        } catch (const likes::Error &error) {
            std::cout << name << " " << error.what() << "\n";
        }
    }

    // Prints that a call is done, or its error.
    template <typename Call> static void done(const char *name, Call call) {
        tell(name, [&] { return call(), " ok"; });
    }

    void like_or_look(std::uint32_t kind) {
        std::uint32_t user = draw_user(), page = draw_page(pages);
        if (kind < 4)
            done("like", [&] { service.like(user, page); });
        else if (kind == 4)
            tell("look", [&] { return shown(service.look(user, page)); });
        else if (kind == 5)
            tell("within", [&] { return shown(service.look_within(user, page, std::chrono::seconds(10)).value()); });
        else
            tell("glance", [&] { return text(service.glance(user, page).seen.last); });
    }

    void tell_all(std::uint32_t kind) {
        if (kind == 7) {
            std::uint32_t user = draw_user();
            tell("last", [&] { return text(service.last(user)); });
        } else if (kind == 8) {
            tell("lasts", [&] { return listed(service.lasts()); });
        } else if (kind == 9) {
            tell("counts", [&] { return listed(service.counts()); });
        } else {
            tell("snapshot", [&] { return moment(service.snapshot()); });
        }
    }

    static std::string moment(const likes::Moment &moment) { return listed(moment.counts) + listed(moment.lasts); }

    void write() {
        likes::Writer writer = service.writer();
        for (std::uint32_t i = 0, length = draw(100); i < length; i++) {
            std::uint32_t user = draw_user(), page = draw_page(pages);
            try {
                writer.like(user, page);
            } catch (const likes::Error &error) {
                std::cout << "kept " << error.what() << "\n";
            }
        }
        std::uint32_t user = draw_user(), page = draw_page(pages);
        tell("shown", [&] { return text(writer.look(user, page).last); });
        done("flush", [&] { writer.flush(); });
        done("stop", [&] { service.stop(); });
        done("close", [&] { writer.close(); });
    }

    void propose() {
        std::vector<std::uint32_t> proposed(draw(3));
        for (std::uint32_t &page : proposed)
            page = draw_page(pages);
        done("propose", [&] { service.propose(proposed); });
    }

    void run() {
        std::uint32_t number = draw(seats);
        std::vector<likes_request> row(draw(5));
        std::vector<likes_answer> answers;
        for (likes_request &request : row) {
            request.op = draw(2) == 0 ? LIKES_LIKE : LIKES_GLANCE;
            request.user = draw_user();
            request.page = draw_page(pages);
        }
        service.hold(number).run(row, answers);
        for (const likes_answer &answer : answers) {
            std::optional<likes::Seen> seen = likes::seen(answer);
            std::string refused = std::string(" ") + likes_status_text(answer.status);
            std::cout << "row" << (answer.status == LIKES_LIKED ? " ok" : seen ? text(seen->last) : refused) << "\n";
        }
    }

    void leave() {
        std::uint32_t number = draw(seats + 1);
        done("retire", [&] { service.retire_seat(number); });
        done("like", [&] { service.like(0, 0); });
        done("back", [&] { service.bring_back_seat(number); });
    }

    void tell_statistics() {
        likes::Statistics told = service.statistics();
        std::cout << "statistics " << told.likes << " " << told.looks << "\n";
    }

    void call() {
        std::uint32_t kind = draw(16);
        if (kind < 7) {
            like_or_look(kind);
        } else if (kind < 11) {
            tell_all(kind);
        } else if (kind == 11) {
            write();
        } else if (kind == 12) {
            propose();
        } else if (kind == 13) {
            run();
        } else if (kind == 14) {
            leave();
        } else {
            tell_statistics();
        }
    }
};

static void open_and_call_shared() {
    likes::Options options;
    std::vector<std::uint64_t> counts(1 + draw(6));
    for (std::uint64_t &count : counts)
        count = draw(100);
    options.seats = 1 + draw(3);
    options.users = 1 + draw(12);
    options.hot = likes::no_hot;
    options.period = std::chrono::microseconds(200);
    options.marks.resize(draw(2));
    likes::Service service(options, counts);
    std::cout << "share ok\n";
    Shared it = {options.users, static_cast<std::uint32_t>(counts.size()), *options.seats, service};
    for (int i = 0; i < shared_calls; i++)
        it.call();
    std::cout << "stop" << Shared::moment(service.stop()) << "\n";
    it.tell_statistics();
}

int main() {
    for (int number = 0; number < services; number++) {
        likes::Options options;
        std::vector<std::uint64_t> counts = draw_opening(options);
        std::optional<likes::Driver> driver;
        say("open", [&] { return driver.emplace(options, counts), text(LIKES_OK); });
        if (!driver)
            continue;
        Service it = {options, static_cast<std::uint32_t>(counts.size()), std::move(*driver)};
        it.take_all();
        for (int i = 0; i < calls; i++)
            it.call();
        it.end();
    }
    for (int number = 0; number < shared_services; number++)
        open_and_call_shared();
}
