/* Clients of a shared service: each call on one thread, with right and wrong handles, seats and numbers; a seat that is
 * locked; and threads that like pages, each by its client, of which no like is lost.
 *
 * At the first wrong answer it prints a line and exits with status 1. After 100 seconds a signal ends it. */
#include "harness.h"

enum { SEATS = 4, USERS = 8, PAGES = 2, THREADS = 4, LIKES = 20000 };

static likes_shared shared;

static void open_it(void) {
    static const uint64_t counts[PAGES] = {10, 20};
    static const uint32_t marks[] = {0};
    likes_options options = {.counts = counts, .pages = PAGES, .marks = marks, .marks_len = 1};
    options.seats = SEATS;
    options.users = USERS;
    options.room = 8;
    IS(likes_shared_open(&options, &shared), LIKES_OK);
    IS(likes_shared_open(&options, &shared), LIKES_IN_USE);
    IS(likes_shared_seats(&shared), SEATS);
}

/* Retires all seats, and has the driver end. */
static void end(likes_client *client) {
    for (uint32_t seat = 0; seat < SEATS; seat++) {
        uint32_t status;
        while ((status = likes_client_retire(client, seat)) != LIKES_GONE) {
            IS(status == LIKES_BETWEEN || status == LIKES_RUNS, true);
            for (uint32_t other = 0; other < SEATS; other++)
                likes_client_turn(client, other);
            likes_client_drive(client, LIKES_END);
        }
    }
    while (likes_client_drive(client, LIKES_END_IF_IT_SERVES) != LIKES_ENDED)
        sched_yield();
}

static void close_it(uint64_t first, uint64_t second) {
    uint64_t counts[PAGES];
    IS(likes_shared_close(&shared, counts, PAGES - 1), LIKES_WRONG_PAGES);
    IS(likes_shared_close(&shared, counts, PAGES), LIKES_COUNTED);
    IS(counts[0], first);
    IS(counts[1], second);
    IS(likes_shared_close(&shared, counts, PAGES), LIKES_EMPTY);
    IS(likes_shared_seats(&shared), 0);
}

/* Each call once. */
static void alone(void) {
    likes_client client = {0};
    likes_phase phase = {0};
    likes_answer answer;
    likes_found found;
    uint32_t page = 5, pages[LIKES_MAX_SPLIT], proposed[] = {1};
    uint64_t counts[PAGES], now = 3;
    size_t many = 7;
    likes_pair row[] = {{0, 1}, {4, 1}, {1, 1}};
    likes_request requests[] = {{.user = 2, .page = 1, .op = LIKES_LIKE},
                                {.user = 2, .page = 1, .op = LIKES_LOOK},
                                {.user = 2, .page = 1, .op = LIKES_GLANCE},
                                {.op = 3}};
    likes_answer answers[4];
    open_it();
    IS(likes_client_like(&client, 0, 0, 1), LIKES_EMPTY);
    IS(likes_client_open(&shared, &client), LIKES_OK);
    IS(likes_client_open(&shared, &client), LIKES_IN_USE);
    IS(likes_shared_take_phase(&shared, &phase), LIKES_OK);
    IS(likes_phase_now(&phase), 0);
    likes_phase_free(&phase);
    IS(likes_shared_take_phase(&shared, &phase), LIKES_ALL_TAKEN);
    IS(likes_client_like(&client, 1, 1, 1), LIKES_LIKED);
    IS(likes_client_like(&client, 0, 1, 1), LIKES_OTHER_SEAT);
    IS(likes_client_like(&client, SEATS, 1, 1), LIKES_UNKNOWN_SEAT);
    IS(likes_client_look(&client, 1, 1, 1, 9, &answer), LIKES_SEEN);
    IS(answer.count, 21);
    IS(answer.last, 1);
    IS(likes_client_glance(&client, 1, 1, 0, &answer), LIKES_SEEN);
    IS(answer.count, 10);
    IS(likes_client_last(&client, 1, 1, &page), LIKES_OK);
    IS(page, 1);
    IS(likes_client_last(&client, 1, 2, &page), LIKES_OTHER_SEAT);
    IS(likes_client_lasts(&client, 1, 0, pages, 2), LIKES_OK);
    IS(pages[0], 1);
    IS(pages[1], LIKES_NO_PAGE);
    IS(likes_client_lasts(&client, 1, 1, pages, 2), LIKES_WRONG_RANGE);
    IS(likes_client_like_row(&client, 0, row, 3, &many), LIKES_OTHER_SEAT);
    IS(many, 2);
    IS(likes_client_like_row(&client, 0, row, 2, NULL), LIKES_LIKED);
    IS(likes_client_run(&client, 2, requests, 4, answers, 4), 4);
    IS(answers[1].count, 26);
    IS(answers[3].status, LIKES_UNKNOWN_OP);
    IS(likes_client_run(&client, SEATS, requests, 4, answers, 4), 0);
    IS(answers[0].status, LIKES_UNKNOWN_SEAT);
    IS(answers[3].status, LIKES_UNKNOWN_OP);
    IS(likes_client_run(&client, 2, NULL, 4, answers, 4), 0);
    IS(answers[0].status, LIKES_NULL);
    IS(likes_client_run(&client, 2, NULL, 0, NULL, 0), 0);
    IS(likes_client_take_found(&client, 0, &found), LIKES_NONE);
    IS(likes_client_turn(&client, 0), LIKES_RUNS);
    IS(likes_client_come_back(&client, 0), LIKES_RUNS);
    IS(likes_client_phase(&client, SEATS, &now), LIKES_UNKNOWN_SEAT);
    IS(now, 3);
    IS(likes_client_phase(&client, 0, &now), LIKES_OK);
    IS(now, 0);
    IS(likes_client_propose(&client, proposed, 1), LIKES_OK);
    IS(likes_client_split_pages(&client, pages, LIKES_MAX_SPLIT, &many), LIKES_OK);
    IS(many, 1);
    IS(pages[0], 0);
    IS(likes_client_snapshot(&client, 0, counts, PAGES), LIKES_NO_MOMENT);
    IS(likes_client_snapshot(&client, 1, counts, PAGES), LIKES_WRONG_RANGE);
    IS(likes_client_last_counts(&client, 0, counts, PAGES), LIKES_NOT_ENDED);
    IS(likes_client_drive(&client, 3), LIKES_UNKNOWN_END);
    IS(likes_client_drive(&client, LIKES_NO_END), LIKES_GOES_ON);
    IS(likes_shared_close(&shared, counts, PAGES), LIKES_OPEN_CLIENT);
    end(&client);
    IS(likes_client_last_counts(&client, 0, counts, PAGES), LIKES_COUNTED);
    IS(counts[1], 26);
    IS(likes_client_close(&client), LIKES_OK);
    IS(likes_client_close(&client), LIKES_EMPTY);
    close_it(10, 26);
}

/* Arrays of no entries may be NULL, and no others. */
static void nulls(void) {
    likes_client client = {0};
    likes_pair like = {0, 1};
    size_t many = 7;
    open_it();
    IS(likes_shared_close(&shared, NULL, PAGES), LIKES_NULL);
    IS(likes_client_open(&shared, &client), LIKES_OK);
    IS(likes_client_lasts(&client, 0, 0, NULL, 1), LIKES_NULL);
    IS(likes_client_lasts(&client, 0, 2, NULL, 0), LIKES_OK);
    IS(likes_client_like_row(&client, 0, NULL, 1, &many), LIKES_NULL);
    IS(many, 0);
    IS(likes_client_like_row(&client, 0, NULL, 0, NULL), LIKES_LIKED);
    IS(likes_client_like_row(&client, 0, &like, 1, NULL), LIKES_LIKED);
    IS(likes_client_snapshot(&client, 0, NULL, 1), LIKES_NULL);
    IS(likes_client_snapshot(&client, PAGES, NULL, 0), LIKES_NO_MOMENT);
    IS(likes_client_last_counts(&client, 0, NULL, 1), LIKES_NULL);
    IS(likes_client_last_counts(&client, 0, NULL, 0), LIKES_NOT_ENDED);
    many = 7;
    IS(likes_client_split_pages(&client, NULL, 1, &many), LIKES_NULL);
    IS(many, 0);
    IS(likes_client_split_pages(&client, NULL, 0, NULL), LIKES_OK);
    IS(likes_client_propose(&client, NULL, 1), LIKES_NULL);
    IS(likes_client_propose(&client, NULL, 0), LIKES_OK);
    end(&client);
    IS(likes_client_close(&client), LIKES_OK);
    close_it(10, 21);
}

/* A seat that a client has locked is busy for others, until it is unlocked, or the client is closed. */
static void locked(void) {
    likes_client one = {0}, two = {0};
    likes_request request = {.user = 1, .page = 1, .op = LIKES_LIKE};
    likes_answer answer;
    uint64_t counts[PAGES];
    open_it();
    IS(likes_client_open(&shared, &one), LIKES_OK);
    IS(likes_client_open(&shared, &two), LIKES_OK);
    IS(likes_client_lock(&one, SEATS), LIKES_UNKNOWN_SEAT);
    IS(likes_client_lock(&one, 1), LIKES_OK);
    IS(likes_client_lock(&one, 1), LIKES_OK);
    IS(likes_client_lock(&two, 1), LIKES_BUSY);
    IS(likes_client_like(&two, 1, 1, 1), LIKES_BUSY);
    IS(likes_client_run(&two, 1, &request, 1, &answer, 1), 0);
    IS(answer.status, LIKES_BUSY);
    IS(likes_client_like(&two, 0, 0, 1), LIKES_LIKED);
    IS(likes_client_like(&one, 1, 1, 1), LIKES_LIKED);
    IS(likes_client_unlock(&one, 1), LIKES_OK);
    IS(likes_client_unlock(&one, 1), LIKES_OK);
    IS(likes_client_like(&two, 1, 1, 1), LIKES_LIKED);
    IS(likes_client_lock(&one, 1), LIKES_OK);
    IS(likes_client_run(&one, 1, &request, 1, &answer, 1), 1);
    IS(answer.status, LIKES_LIKED);
    IS(likes_client_close(&one), LIKES_OK);
    IS(likes_client_like(&two, 1, 1, 1), LIKES_LIKED);
    IS(likes_client_close(&two), LIKES_OK);
    IS(likes_shared_close(&shared, counts, PAGES), LIKES_NOT_ENDED);
    IS(likes_client_open(&shared, &one), LIKES_OK);
    end(&one);
    IS(likes_client_close(&one), LIKES_OK);
    close_it(10, 25);
}

/* A thread's likes, each made again until it is counted. */
static void *like(void *at) {
    likes_client *client = at;
    for (uint32_t i = 0; i < LIKES; i++) {
        uint32_t user = i % USERS, status;
        while ((status = likes_client_like(client, user % SEATS, user, i % PAGES)) != LIKES_LIKED) {
            hold(status == LIKES_BUSY || status == LIKES_BETWEEN, "a like is refused");
            for (uint32_t seat = 0; seat < SEATS; seat++)
                likes_client_turn(client, seat);
            likes_client_drive(client, LIKES_END_IF_IT_SERVES);
            sched_yield();
        }
    }
    return NULL;
}

static void together(void) {
    likes_client clients[THREADS] = {{0}};
    pthread_t threads[THREADS];
    open_it();
    for (int i = 0; i < THREADS; i++)
        IS(likes_client_open(&shared, &clients[i]), LIKES_OK);
    for (int i = 0; i < THREADS; i++)
        start_thread(&threads[i], like, &clients[i]);
    for (int i = 0; i < THREADS; i++)
        pthread_join(threads[i], NULL);
    end(&clients[0]);
    for (int i = 0; i < THREADS; i++)
        IS(likes_client_close(&clients[i]), LIKES_OK);
    close_it(10 + THREADS * LIKES / 2, 20 + THREADS * LIKES / 2);
}

int main(void) {
    alarm(100);
    alone();
    nulls();
    locked();
    together();
    likes_shared none = {0};
    likes_shared_free(&none);
    likes_shared_free(NULL);
    printf("as told\n");
    return 0;
}
