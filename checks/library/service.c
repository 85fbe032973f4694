/* Many threads at one service of likes_service.h: single calls by user, rows at seats that are awake, counts of one
 * moment, proposed pages, and threads that sleep meanwhile. Each thread has its own users, so it knows their last
 * likes.
 *
 * usage: service SEED SECONDS
 *
 * If an answer or a total is wrong, it prints a line and exits with status 1. */
#include "harness.h"

enum { SEATS = 3, USERS = 240, PAGES = 5, SINGLES = 6, BATCHES = 2, THREADS = SINGLES + BATCHES, ROW = 16 };

static likes_service *service;
static uint64_t until;
static uint64_t calls, waits, glimpses;

typedef struct {
    uint32_t number;
    uint64_t random, liked[PAGES], shown[PAGES], looks, glimpses;
    uint32_t last[USERS];
    pthread_t thread;
} worker;

/* One of this thread's users. */
static uint32_t draw_user(worker *it) {
    return it->number + THREADS * (uint32_t)below(&it->random, USERS / THREADS);
}

static void note_like(worker *it, uint32_t status, uint32_t user, uint32_t page) {
    hold(status == LIKES_LIKED, "a like was refused");
    it->liked[page]++;
    it->last[user] = page;
}

/* What a look or a glance shows: the user's last like, and no less than an earlier exact count. */
static void note_look(worker *it, const likes_answer *answer, uint32_t user, uint32_t page) {
    bool is_exact = answer->status == LIKES_SEEN;
    hold(is_exact || answer->status == LIKES_GLIMPSED, "a look was not answered");
    hold(answer->last == it->last[user], "a look has another last like");
    hold(answer->count >= it->shown[page], "a look shows less than an earlier one");
    if (is_exact)
        it->shown[page] = answer->count;
    it->looks++;
    it->glimpses += !is_exact;
}

static void single(worker *it) {
    uint32_t user = draw_user(it), page = (uint32_t)below(&it->random, PAGES);
    likes_answer answer;
    switch (below(&it->random, 4)) {
    case 0:
        hold(likes_service_look(service, user, page, &answer) == LIKES_SEEN, "a look has no exact count");
        note_look(it, &answer, user, page);
        break;
    case 1:
        likes_service_glance(service, user, page, &answer);
        note_look(it, &answer, user, page);
        break;
    default:
        note_like(it, likes_service_like(service, user, page), user, page);
    }
}

/* A row of likes and glances at one seat. */
static void batch(worker *it) {
    likes_request row[ROW];
    likes_answer answers[ROW];
    uint32_t seat = (uint32_t)below(&it->random, SEATS);
    for (uint32_t i = 0; i < ROW; i++) {
        uint32_t user = draw_user(it);
        while (likes_seat_of(user, SEATS) != seat)
            user = draw_user(it);
        row[i] = (likes_request){.user = user,
                                 .page = (uint32_t)below(&it->random, PAGES),
                                 .op = i % 4 ? LIKES_LIKE : LIKES_GLANCE};
    }
    likes_service_lock(service, seat);
    hold(likes_service_run(service, seat, row, ROW, answers) == ROW, "a row was not done");
    likes_service_unlock(service, seat);
    for (uint32_t i = 0; i < ROW; i++) {
        if (row[i].op == LIKES_LIKE)
            note_like(it, answers[i].status, row[i].user, row[i].page);
        else
            note_look(it, &answers[i], row[i].user, row[i].page);
    }
}

static void *work(void *at) {
    worker *it = (worker *)at;
    while (clock_now() < until) {
        if (it->number < SINGLES)
            single(it);
        else
            batch(it);
        if (below(&it->random, 100) == 0)
            sleep_for(below(&it->random, 2000000));
    }
    return NULL;
}

/* Proposes a page, or none. The two that are marked stay among those that are split. */
static void propose(uint32_t page) {
    uint32_t split[LIKES_MAX_SPLIT], marked = 0;
    hold(likes_service_propose(service, &page, page <= PAGES) == LIKES_OK, "a proposal was refused");
    size_t length = likes_service_split_pages(service, split, LIKES_MAX_SPLIT);
    for (size_t n = 0; n < length; n++)
        marked += split[n] < 2;
    hold(marked == 2 && length <= PAGES, "other pages are split");
}

/* Counts of one moment, which never fall from one to the next. */
static void take_counts(void) {
    uint64_t earlier[PAGES] = {0}, now[PAGES];
    uint32_t lasts[USERS];
    for (uint32_t times = 0; clock_now() < until; times++) {
        propose(times % (PAGES + 2));
        uint32_t status = times % 2 == 0 ? likes_service_counts(service, now, PAGES)
                                         : likes_service_snapshot(service, now, PAGES, lasts, USERS);
        hold(status == LIKES_COUNTED, "there are no counts");
        for (uint32_t page = 0; page < PAGES; page++)
            hold(now[page] >= earlier[page], "a count fell");
        memcpy(earlier, now, sizeof now);
        sleep_for(3000000);
    }
}

/* A service for a moment: with so many seats, so much room, and phases of so many microseconds. */
static void play(uint64_t seed, uint32_t room, uint32_t period) {
    static worker workers[THREADS];
    const uint32_t marks[] = {1, 0};
    const uint64_t counts[PAGES] = {1, 2, 3, 4, 5};
    uint64_t totals[PAGES];
    likes_options options = {.seats = SEATS, .users = USERS, .room = room, .hot = 50};
    uint32_t status = open_shared(options, counts, PAGES, marks, 2, NULL, 0, period, &service);
    hold(status == LIKES_OK, "no service was started");
    for (uint32_t i = 0; i < THREADS; i++) {
        memset(&workers[i], 0, sizeof workers[i]);
        memset(workers[i].last, 0xff, sizeof workers[i].last);
        workers[i].number = i;
        workers[i].random = seed * THREADS + i;
        start_thread(&workers[i].thread, work, &workers[i]);
    }
    take_counts();
    for (uint32_t i = 0; i < THREADS; i++)
        pthread_join(workers[i].thread, NULL);
    hold(likes_service_stop(service, totals, PAGES - 1) == LIKES_WRONG_LENGTH, "a wrong length was taken");
    hold(likes_service_stop(service, totals, PAGES) == LIKES_OK, "the service was not stopped");
    likes_service_close(service);
    service = NULL;
    for (uint32_t page = 0; page < PAGES; page++) {
        for (uint32_t i = 0; i < THREADS; i++) {
            totals[page] -= workers[i].liked[page];
            calls += workers[i].liked[page];
        }
        hold(totals[page] == counts[page], "a total is wrong");
    }
    for (uint32_t i = 0; i < THREADS; i++) {
        waits += workers[i].looks;
        glimpses += workers[i].glimpses;
    }
}

/* What is refused leaves nothing behind. */
static void refused(void) {
    const uint64_t counts[1] = {0};
    likes_options options = {.seats = LIKES_MAX_SEATS + 1, .users = 1, .room = 1, .hot = 0};
    uint32_t status = open_shared(options, counts, 1, NULL, 0, NULL, 0, 1000, &service);
    hold(status == LIKES_WRONG_SEATS, "a seat too many was opened");
    options.seats = 1;
    status = open_shared(options, NULL, 0, NULL, 0, NULL, 0, 1000, &service);
    hold(status == LIKES_WRONG_PAGES, "no pages were opened");
    status = open_shared(options, counts, 1, NULL, 0, NULL, 0, 1000, &service);
    hold(status == LIKES_OK, "one page was refused");
    hold(likes_service_like(service, 1, 0) == LIKES_UNKNOWN_USER, "an unknown user has liked");
    hold(likes_service_like(service, 0, 1) == LIKES_UNKNOWN_PAGE, "an unknown page was liked");
    uint64_t totals[1];
    hold(likes_service_counts(service, totals, 1) == LIKES_COUNTED && totals[0] == 0,
         "there are no counts where nothing is split");
    hold(likes_service_stop(service, totals, 1) == LIKES_OK && totals[0] == 0, "the service was not stopped");
    likes_service_close(service);
    service = NULL;
}

int main(int count, char **words) {
    if (count != 3) {
        fputs("usage: service SEED SECONDS\n", stderr);
        return 2;
    }
    uint64_t seed = strtoull(words[1], NULL, 10), seconds = strtoull(words[2], NULL, 10);
    uint64_t end = clock_now() + seconds * UINT64_C(1000000000);
    static const uint32_t rooms[] = {1, 4, 4096}, periods[] = {1, 100, 1000, 5000};
    refused();
    for (uint64_t round = 0; clock_now() < end; round++) {
        until = clock_now() + UINT64_C(400000000);
        play(seed + round, rooms[round % 3], periods[round % 4]);
    }
    hold(glimpses > 0, "no glance tells that its page is split");
    printf("totals and last likes held, with %llu likes and %llu looks\n", (unsigned long long)calls,
           (unsigned long long)waits);
    return 0;
}
