// Four threads like and look, by a writer and in rows, and the totals are printed.
#include "likes.hpp"

#include <future>
#include <iostream>

constexpr std::uint32_t threads = 4, users = 1000, likes_each = 50000;

// Likes and looks by a writer. A thread's users are its own here, so it knows their last likes.
void call_by_writer(likes::Service &service, std::uint32_t number) {
    likes::Writer writer = service.writer();
    for (std::uint32_t i = 0; i < likes_each; i++) {
        std::uint32_t user = number + threads * (i % (users / threads)), page = i % 3;
        writer.like(user, page);
        if (i % 100 == 0 && writer.look(user, 0).last != page)
            throw std::logic_error("another last like");
    }
    writer.close();
}

// The same likes in rows of 100, at a seat that the thread holds for each row.
void call_in_rows(likes::Service &service, std::uint32_t number) {
    std::vector<likes_request> row(100);
    std::vector<likes_answer> answers;
    for (std::uint32_t i = 0; i < likes_each; i += 100) {
        for (std::uint32_t j = 0; j < 100; j++) {
            row[j].user = number + threads * ((i + j) % (users / threads));
            row[j].page = (i + j) % 3;
            row[j].op = LIKES_LIKE;
        }
        service.hold(number).run(row, answers);
    }
}

int main() {
    try {
        likes::Options options;
        options.users = users;
        options.seats = threads; // one for each thread that holds its seat
        likes::Service service(options, {0, 0, 0, 0});
        std::vector<std::future<void>> all;
        for (std::uint32_t number = 0; number < threads; number++)
            all.push_back(std::async(std::launch::async, number % 2 ? call_in_rows : call_by_writer, std::ref(service),
                                     number));
        for (auto &thread : all)
            thread.get(); // throws what the thread has thrown
        try {
            service.like(users, 0);
        } catch (const likes::Error &error) {
            std::cout << "a like of user " << users << ": " << error.what() << "\n";
        }
        for (std::uint64_t total : service.stop().counts)
            std::cout << total << "\n";
    } catch (const std::exception &error) {
        std::cerr << error.what() << "\n";
        return 1;
    }
}
