/* Four busy threads at their own seats, over phases of 1 ms: at the end each page's total, each user's last like and
 * the tag of each look that waited must be right.
 *
 * usage: epochs SECONDS */
#include "harness.h"

enum { SEATS = 4, USERS = 10000, PAGES = 20, ROW = 64 };

typedef struct {
    uint32_t number;
    uint64_t random, liked[PAGES], asked, found, next;
    uint32_t last[USERS / SEATS];
    pthread_t thread;
} worker;

static likes_service *service;
static worker workers[SEATS];
static uint64_t until;

/* Takes found looks: their tags come in the order of asking, with none left out. */
static void take(worker *it, likes_seat *seat, const uint64_t *tags) {
    likes_found found;
    while (likes_seat_take_found(seat, &found)) {
        hold(found.tag == tags[it->next++ % LIKES_MAX_ROOM], "a look was found out of turn");
        hold(found.ran == found.asked + 1, "a look was found in another phase than the next");
        it->found++;
    }
}

/* Notes the answers of a row. The tags of those that wait stand in a ring, as large as a seat's room. */
static void note(worker *it, const likes_request *row, const likes_answer *answers, size_t length, uint64_t *tags) {
    for (size_t i = 0; i < length; i++) {
        uint32_t *last = &it->last[row[i].user / SEATS];
        if (answers[i].status == LIKES_LIKED) {
            it->liked[row[i].page]++;
            *last = row[i].page;
        } else if (answers[i].status == LIKES_SEEN) {
            hold(answers[i].last == *last, "a look shows another last like");
        } else {
            hold(answers[i].status == LIKES_WAITS, "a request was refused");
            tags[it->asked++ % LIKES_MAX_ROOM] = row[i].tag;
        }
    }
}

static void *work(void *at) {
    worker *it = (worker *)at;
    static uint64_t all_tags[SEATS][LIKES_MAX_ROOM];
    uint64_t *tags = all_tags[it->number], tag = 0;
    likes_request row[ROW];
    likes_answer answers[ROW];
    while (clock_now() < until) {
        likes_seat *seat = likes_service_lock(service, it->number);
        for (uint32_t i = 0; i < ROW; i++)
            row[i] = (likes_request){.tag = tag++,
                                     .user = it->number + SEATS * (uint32_t)below(&it->random, USERS / SEATS),
                                     .page = (uint32_t)below(&it->random, 1 + below(&it->random, PAGES)),
                                     .op = below(&it->random, 10) == 0 ? LIKES_LOOK : LIKES_LIKE};
        for (size_t done = 0; done < ROW;) {
            size_t more = likes_service_run(service, it->number, row + done, ROW - done, answers);
            note(it, row + done, answers, more, tags);
            done += more;
            if (done < ROW)
                likes_service_drive(service);
            take(it, seat, tags);
        }
        likes_service_unlock(service, it->number);
    }
    likes_seat *seat = likes_service_lock(service, it->number);
    while (it->found < it->asked) {
        likes_service_drive(service);
        likes_seat_turn(seat);
        take(it, seat, tags);
    }
    likes_service_unlock(service, it->number);
    return NULL;
}

int main(int count, char **words) {
    if (count != 2) {
        fputs("usage: epochs SECONDS\n", stderr);
        return 2;
    }
    const uint64_t counts[PAGES] = {0};
    const uint32_t marks[] = {0};
    uint64_t totals[PAGES], phases, likes = 0, looks = 0;
    likes_options options = {.seats = SEATS, .users = USERS, .room = LIKES_MAX_ROOM, .hot = 1000};
    uint32_t status = open_shared(options, counts, PAGES, marks, 1, NULL, 0, 1000, &service);
    hold(status == LIKES_OK, "no service was started");
    until = clock_now() + strtoull(words[1], NULL, 10) * UINT64_C(1000000000);
    for (uint32_t i = 0; i < SEATS; i++) {
        workers[i].random = workers[i].number = i;
        memset(workers[i].last, 0xff, sizeof workers[i].last);
        start_thread(&workers[i].thread, work, &workers[i]);
    }
    for (uint32_t i = 0; i < SEATS; i++)
        pthread_join(workers[i].thread, NULL);
    for (uint32_t user = 0; user < USERS; user++) {
        likes_answer answer;
        likes_service_glance(service, user, 0, &answer);
        hold(answer.last == workers[user % SEATS].last[user / SEATS], "a user's last like is wrong");
    }
    phases = likes_service_phase(service);
    hold(likes_service_stop(service, totals, PAGES) == LIKES_OK, "the service was not stopped");
    likes_service_close(service);
    for (uint32_t page = 0; page < PAGES; page++) {
        for (uint32_t i = 0; i < SEATS; i++)
            totals[page] -= workers[i].liked[page];
        hold(totals[page] == 0, "a total is wrong");
    }
    for (uint32_t i = 0; i < SEATS; i++) {
        looks += workers[i].asked;
        for (uint32_t page = 0; page < PAGES; page++)
            likes += workers[i].liked[page];
    }
    printf("%llu likes and %llu looks that waited, over %llu phases\n", (unsigned long long)likes,
           (unsigned long long)looks, (unsigned long long)phases);
    return 0;
}
