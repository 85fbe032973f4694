/* Counts and last likes, of one moment or as they are. */
#include "service.h"

/* How long a snapshot waits for a seat that a thread has locked, and sleeps before it looks again, in nanoseconds. */
#define MOMENT UINT64_C(100000000)
#define NAP UINT64_C(10000000)

/* How many last likes of a seat are read at a time. */
enum { BLOCK = 1024 };

static size_t users_of(const inner_seat *seat) {
    const likes_service *service = seat->service;
    return service->users / service->seats + (seat->number < service->users % service->seats);
}

/* Writes last likes of a seat, from one on, into an array by user number, with the seat locked. */
static void write_block(inner_member *member, const inner_seat *seat, size_t from, uint32_t *lasts) {
    uint32_t row[BLOCK], seats = seat->service->seats;
    size_t left = users_of(seat) - from, length = left < BLOCK ? left : BLOCK;
    likes_client_lasts(&member->client, seat->number, (uint32_t)from, row, length);
    for (size_t i = 0; i < length; i++)
        lasts[(from + i) * seats + seat->number] = row[i];
}

/* Writes all of them. That takes long where there are many, and phases go on meanwhile. */
static void write_seat(inner_member *member, inner_seat *seat, uint32_t *lasts) {
    inner_lock_until(member, seat, INNER_NEVER);
    for (size_t from = 0; from < users_of(seat); from += BLOCK) {
        write_block(member, seat, from, lasts);
        inner_after(member, seat);
    }
    inner_unlock(member, seat);
}

/* Ends a joined phase that all seats have left: one that is free comes back, and leaves again once the end is announced.
 * (Last counts would end the service.) Whether one was free; it may not be gone any more. */
static bool end_for_all(inner_member *member) {
    inner_seat *seat = member->service->seat;
    uint32_t left = member->service->seats;
    while (left > 0 && !inner_lock_until(member, seat, 0))
        seat++, left--;
    if (left == 0)
        return false;
    bool is_gone = likes_client_turn(&member->client, seat->number) == LIKES_GONE;
    if (is_gone && likes_client_come_back(&member->client, seat->number) == LIKES_RUNS) {
        inner_turn(member, LIKES_END);
        likes_client_retire(&member->client, seat->number);
    }
    inner_unlock(member, seat);
    return true;
}

/* Makes a turn towards the end of a joined phase, unless the next phase would be released unseen, or a split one has to
 * go on for a thread: LIKES_NOT_ALL_IN. */
static uint32_t turn_to_moment(inner_member *member) {
    likes_service *service = member->service;
    bool is_split = service->released % 2 == 1;
    bool starves = !service->is_ending && service->starving > 0;
    return (is_split ? starves : service->is_ending) ? (uint32_t)LIKES_NOT_ALL_IN : inner_turn(member, LIKES_END);
}

/* A seat as a call that waits for it last found it, and since when it has been so. */
typedef struct sighting {
    uint64_t since;
    uint32_t calls;
} sighting;

/* Whether a thread has had a seat locked for MOMENT, without a call, since it was first found so. */
static bool is_locked_long(const likes_service *service, sighting *seen) {
    uint64_t now = inner_clock();
    bool is_long = false;
    for (uint32_t i = 0; i < service->seats; i++) {
        uint32_t calls = service->seat[i].calls;
        if (calls != seen[i].calls || seen[i].since == 0)
            seen[i] = (sighting){now, calls};
        is_long |= calls % 2 == 1 && now - seen[i].since >= MOMENT;
    }
    return is_long;
}

/* Goes on to a moment at which no count changes, and writes the counts. A service's last phase goes on: there is none
 * in it. With `seen`, it gives up once a seat is locked for long. */
static uint32_t go_to_moment(inner_member *member, uint64_t *counts, size_t pages, sighting *seen) {
    for (;;) {
        inner_work(member);
        uint32_t status = likes_client_snapshot(&member->client, 0, counts, pages);
        if (status != LIKES_NO_MOMENT || (seen != NULL && is_locked_long(member->service, seen)))
            return status;
        uint32_t turn = turn_to_moment(member);
        if (turn == LIKES_GOES_ON)
            return status;
        /* Who gives back a seat that has left has no phase work there, and so wishes for no turn. */
        uint64_t until = seen != NULL || turn == LIKES_ENDED ? inner_clock() + NAP : INNER_NEVER;
        if (turn == LIKES_NOT_ALL_IN || (turn == LIKES_ENDED && !end_for_all(member)))
            inner_await_wish(member->service, until);
    }
}

/* Writes a block of each seat's last likes. It gives up once a seat is locked for long. Who has locked one lets others
 * have it soon, if it waits for a phase in a call of the service. */
static uint32_t write_blocks(inner_member *member, size_t from, uint32_t *lasts, sighting *seen) {
    likes_service *service = member->service;
    for (uint32_t number = 0; number < service->seats; number++) {
        inner_seat *seat = &service->seat[number];
        while (!inner_lock_until(member, seat, inner_clock() + NAP))
            if (is_locked_long(service, seen))
                return LIKES_NO_MOMENT;
        write_block(member, seat, from, lasts);
        inner_unlock(member, seat);
    }
    return LIKES_COUNTED;
}

/* Writes all last likes of a moment, by blocks of all seats, so that each line of the array is fetched once: all calls
 * wait meanwhile. */
static uint32_t write_lasts(inner_member *member, uint32_t *lasts, sighting *seen) {
    uint32_t status = LIKES_COUNTED;
    for (size_t from = 0; from < users_of(member->service->seat) && status == LIKES_COUNTED; from += BLOCK)
        status = write_blocks(member, from, lasts, seen);
    return status;
}

/* Writes counts, and last likes too where an array is given. */
static uint32_t write_moment(inner_member *member, uint64_t *counts, size_t pages, uint32_t *lasts) {
    likes_service *service = member->service;
    sighting seen[LIKES_MAX_SEATS] = {{0, 0}};
    if (pages != service->pages)
        return LIKES_WRONG_LENGTH;
    pthread_mutex_lock(&service->turning);
    uint32_t status = go_to_moment(member, counts, pages, lasts != NULL ? seen : NULL);
    if (status == LIKES_COUNTED && lasts != NULL)
        status = write_lasts(member, lasts, seen);
    inner_stir(member);
    return status;
}

uint32_t likes_service_lasts(likes_service *service, uint32_t *lasts, size_t users) {
    inner_member *member;
    uint32_t fault = inner_enter(service, likes_is_missing(lasts, users), &member);
    if (fault == LIKES_OK && users != service->users)
        return LIKES_WRONG_LENGTH;
    for (uint32_t number = 0; fault == LIKES_OK && number < service->seats; number++)
        write_seat(member, &service->seat[number], lasts);
    return fault;
}

uint32_t likes_service_counts(likes_service *service, uint64_t *counts, size_t pages) {
    inner_member *member;
    uint32_t fault = inner_enter(service, likes_is_missing(counts, pages), &member);
    return fault == LIKES_OK ? write_moment(member, counts, pages, NULL) : fault;
}

uint32_t likes_service_snapshot(likes_service *service, uint64_t *counts, size_t pages, uint32_t *lasts, size_t users) {
    inner_member *member;
    bool is_missing = likes_is_missing(counts, pages) || likes_is_missing(lasts, users);
    uint32_t fault = inner_enter(service, is_missing, &member);
    if (fault == LIKES_OK && users != service->users)
        return LIKES_WRONG_LENGTH;
    return fault == LIKES_OK ? write_moment(member, counts, pages, lasts) : fault;
}
