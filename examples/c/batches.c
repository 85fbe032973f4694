/* Threads at full speed: each locks a seat, and runs rows of 64 requests. One request in eight is a look.
 *
 * usage: batches [THREADS [LIKES]]: how many threads, 1 to 64 (4), and how many likes each (1000000) */
#include <likes_service.h>

#include <inttypes.h>
#include <pthread.h>
#include <stdio.h>
#include <stdlib.h>

enum { PAGES = 8, USERS = 100000, ROW = 64 };

typedef struct {
    likes_service *service;
    uint32_t number, threads;
    uint64_t likes;             /* how many it has to make */
    uint64_t asked, seen, found; /* looks that it asked for, that were answered at once, and that were found later */
    pthread_t thread;
} worker;

static void fail(const char *why) {
    fprintf(stderr, "%s\n", why);
    exit(1);
}

static likes_seat *lock(likes_service *service, uint32_t number) {
    likes_seat *seat = likes_service_lock(service, number);
    if (seat == NULL) /* the thread holds no other seat, so it has no memory */
        fail(likes_status_text(LIKES_NO_MEMORY));
    return seat;
}

/* A row of requests: users of this seat, and page 0 in half of them. */
static void fill(worker *it, likes_request *row, uint64_t *random) {
    for (uint32_t i = 0; i < ROW; i++) {
        *random = *random * UINT64_C(6364136223846793005) + 1442695040888963407u;
        uint32_t drawn = (uint32_t)(*random >> 33);
        row[i].user = it->number + it->threads * (drawn % (USERS / it->threads));
        row[i].page = drawn >> 30 ? 0 : drawn % PAGES;
        row[i].op = i % 8 == 7 ? LIKES_LOOK : LIKES_LIKE;
        row[i].tag = it->asked += row[i].op == LIKES_LOOK; /* looks are numbered from 1 */
    }
}

/* Takes the looks that were found. They come in the order in which they were asked for. */
static void take(worker *it, likes_seat *seat, uint64_t *latest) {
    likes_found found;
    while (likes_seat_take_found(seat, &found)) {
        if (found.tag <= *latest)
            abort();
        *latest = found.tag;
        it->found++;
    }
}

static void *work(void *at) {
    worker *it = at;
    likes_request row[ROW] = {{0}}; /* its reserved fields are 0 and stay so */
    likes_answer answers[ROW];
    uint64_t random = it->number, liked = 0, latest = 0;
    likes_seat *seat = lock(it->service, it->number);
    while (liked < it->likes) {
        fill(it, row, &random);
        for (size_t done = 0; done < ROW;) {
            size_t more = likes_service_run(it->service, it->number, row + done, ROW - done, answers);
            for (size_t i = 0; i < more; i++) {
                liked += answers[i].status == LIKES_LIKED;
                it->seen += answers[i].status == LIKES_SEEN;
            }
            done += more;
            if (done < ROW) /* a look has no room: let the phase end */
                likes_service_drive(it->service);
            take(it, seat, &latest);
        }
    }
    it->likes = liked;
    likes_service_unlock(it->service, it->number);
    return NULL;
}

int main(int count, char **words) {
    uint32_t threads = count > 1 ? (uint32_t)strtoul(words[1], NULL, 10) : 4;
    uint64_t likes = count > 2 ? strtoull(words[2], NULL, 10) : 1000000;
    if (threads < 1 || threads > LIKES_MAX_SEATS || likes < 1)
        fail("usage: batches [THREADS [LIKES]]: 1 to 64 threads, and 1 or more likes of each");
    static worker workers[LIKES_MAX_SEATS];
    likes_service *service = NULL;
    const uint64_t counts[PAGES] = {0};
    uint64_t totals[PAGES], sum = 0, liked = 0, asked = 0, answered = 0;
    const likes_options options = {
        .counts = counts, .pages = PAGES, .users = USERS, .seats = threads, .room = 4096, .hot = 1000};
    uint32_t status = likes_service_open(&options, &service);
    if (!likes_is_success(status))
        fail(likes_status_text(status));
    for (uint32_t i = 0; i < threads; i++) {
        workers[i] = (worker){.service = service, .number = i, .threads = threads, .likes = likes};
        if (pthread_create(&workers[i].thread, NULL, work, &workers[i]) != 0)
            fail("a thread can't be started");
    }
    for (uint32_t i = 0; i < threads; i++)
        pthread_join(workers[i].thread, NULL);
    likes_service_retire(service); /* so the last looks that wait are found */
    for (uint32_t i = 0; i < threads; i++) {
        uint64_t latest = 0;
        take(&workers[i], lock(service, i), &latest);
        likes_service_unlock(service, i);
        liked += workers[i].likes;
        asked += workers[i].asked;
        answered += workers[i].seen + workers[i].found;
    }
    likes_service_stop(service, totals, PAGES);
    likes_service_close(service);
    for (uint32_t page = 0; page < PAGES; page++)
        sum += totals[page];
    printf("likes: %" PRIu64 " made, %" PRIu64 " counted\n", liked, sum);
    printf("looks: %" PRIu64 " asked, %" PRIu64 " answered\n", asked, answered);
    return liked == sum && asked == answered ? 0 : 1;
}
