/* Likes by a client of a shared service, in rows of 64, for `bench/run live-counts`, which counts what they cost.
 *
 * usage: live-clients SYSTEM EXPONENT ROWS
 *   SYSTEM    client: a call for each like; client,row: a call for each row
 *   EXPONENT  of Zipf's law, or below 0: all likes are of one page
 *
 * One client of a service of four seats likes pages at one of these, in a split phase: its rows run in `counted_rows`. */
#include "../checks/library/harness.h"

#include <math.h>

enum { ROW = 64, RING = 1 << 16, SEATS = 4, USERS = 1000000, PAGES = 1000, HOT = 100 };

static likes_shared shared;
static likes_client client;
static likes_pair ring[RING];

static void draw(double exponent) {
    static double sums[PAGES];
    double sum = 0;
    uint64_t random = 1;
    for (uint32_t page = 0; page < PAGES; page++)
        sums[page] = sum += exponent < 0 ? page == 0 : pow(page + 1, -exponent);
    for (uint32_t i = 0; i < RING; i++) {
        ring[i].user = SEATS * (uint32_t)below(&random, USERS / SEATS);
        ring[i].page = drawn_rank(&random, sums, PAGES);
    }
}

static void single(const likes_pair *row) {
    for (size_t i = 0; i < ROW; i++)
        likes_client_like(&client, 0, row[i].user, row[i].page);
}

static void whole(const likes_pair *row) {
    likes_client_like_row(&client, 0, row, ROW, NULL);
}

static void go_through(void (*how)(const likes_pair *), uint32_t rows) {
    for (uint32_t row = 0; row < rows; row++)
        how(&ring[row * ROW % RING]);
}

__attribute__((noinline)) static void counted_rows(void (*how)(const likes_pair *), uint32_t rows) {
    go_through(how, rows);
}

/* Makes turns of the driver and of all seats, and gives the phase that seat 0 runs. */
static uint64_t turn(void) {
    uint64_t phase;
    likes_client_drive(&client, LIKES_END_IF_IT_SERVES);
    for (uint32_t seat = 0; seat < SEATS; seat++)
        likes_client_turn(&client, seat);
    IS(likes_client_phase(&client, 0, &phase), LIKES_OK);
    return phase;
}

int main(int count, char **words) {
    likes_options options = {.pages = PAGES, .seats = SEATS, .users = USERS, .room = 4096, .hot = HOT};
    hold(count == 4, "usage: live-clients SYSTEM EXPONENT ROWS");
    void (*how)(const likes_pair *) = strcmp(words[1], "client,row") == 0 ? whole : single;
    draw(atof(words[2]));
    IS(likes_shared_open(&options, &shared), LIKES_OK);
    IS(likes_client_open(&shared, &client), LIKES_OK);
    do
        go_through(how, RING / ROW);
    while (turn() % 2 == 0);
    counted_rows(how, (uint32_t)strtoul(words[3], NULL, 10));
    return 0;
}
