/* Two threads like by single calls, each at its own seat, in a split phase. Their handles are side by side, and then
 * 256 bytes apart. It prints the processor time of a like, the median of nine, and the ratio. If a call wrote its
 * handle, likes with handles side by side would take longer.
 *
 * It exits with status 1 if a count is wrong. */
#include "harness.h"

enum { LIKES = 4000000, TIMES = 9 };

/* Room for two handles: in one cache line, or in two that are far apart. */
static _Alignas(256) struct {
    likes_seat seats[2];
    char apart[256 - 2 * sizeof(likes_seat)];
    likes_seat far;
} room;

static likes_driver driver;
static pthread_barrier_t begin;

/* What a thread likes with, and how long it took, in nanoseconds on a processor. */
typedef struct {
    likes_seat *seat;
    uint32_t user;
    uint64_t took;
    pthread_t thread;
} player;

static void *play(void *at) {
    player *it = (player *)at;
    uint32_t liked = 0;
    pthread_barrier_wait(&begin);
    uint64_t began = clock_of(CLOCK_THREAD_CPUTIME_ID);
    for (uint32_t n = 0; n < LIKES; n++)
        liked += likes_seat_like(it->seat, it->user, 0) == LIKES_LIKED;
    it->took = clock_of(CLOCK_THREAD_CPUTIME_ID) - began;
    hold(liked == LIKES, "a like was refused");
    return NULL;
}

/* How long a like takes two threads, of which the second has its handle here. */
static double measure(likes_seat *second) {
    player players[2] = {{.seat = &room.seats[0], .user = 0}, {.seat = second, .user = 1}};
    pthread_barrier_init(&begin, NULL, 2);
    for (int i = 0; i < 2; i++)
        start_thread(&players[i].thread, play, &players[i]);
    for (int i = 0; i < 2; i++)
        pthread_join(players[i].thread, NULL);
    pthread_barrier_destroy(&begin);
    return (double)(players[0].took + players[1].took) / (2.0 * LIKES);
}

/* Moves a handle. */
static void move(likes_seat *from, likes_seat *to) {
    *to = *from;
    *from = (likes_seat){0};
}

int main(void) {
    const uint64_t counts[] = {0};
    const uint32_t marks[] = {0};
    likes_options options = {.seats = 2, .users = 2, .room = 1};
    uint64_t last[1];
    double beside[TIMES], apart[TIMES];
    hold(open_core(options, counts, 1, marks, 1, NULL, 0, &driver) == LIKES_OK, "no service was opened");
    for (int i = 0; i < 2; i++)
        hold(likes_driver_take_seat(&driver, &room.seats[i]) == LIKES_OK, "no seat was taken");
    hold(likes_driver_turn(&driver, LIKES_END_IF_IT_SERVES) == LIKES_ANNOUNCED, "the phase goes on");
    for (int i = 0; i < 2; i++)
        hold(likes_seat_turn(&room.seats[i]) == LIKES_BETWEEN, "a seat does not answer");
    hold(likes_driver_turn(&driver, LIKES_NO_END) == LIKES_RELEASED, "no phase was released");
    for (int time = 0; time < TIMES; time++) {
        beside[time] = measure(&room.seats[1]);
        move(&room.seats[1], &room.far);
        apart[time] = measure(&room.far);
        move(&room.far, &room.seats[1]);
    }
    while (likes_driver_turn(&driver, LIKES_END_IF_IT_SERVES) != LIKES_ENDED)
        for (int i = 0; i < 2; i++)
            likes_seat_retire(&room.seats[i]);
    hold(likes_driver_last_counts(&driver, 0, last, 1) == LIKES_COUNTED, "there are no last counts");
    hold(last[0] == UINT64_C(4) * LIKES * TIMES, "the count is wrong");
    for (int i = 0; i < 2; i++)
        likes_seat_free(&room.seats[i]);
    likes_driver_free(&driver);
    double ratio = median_of(beside, TIMES) / median_of(apart, TIMES);
    printf("a like takes %.1f ns side by side, %.1f ns apart: %.2f times\n", median_of(beside, TIMES), median_of(apart, TIMES), ratio);
    return 0;
}
