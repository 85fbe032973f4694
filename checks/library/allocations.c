/* Counts what the library allocates.
 *
 *   - No call but likes_open may allocate, and none but likes_close and those that free may give memory back. Each free
 *     of a seat or of a driver must give some back, and once all of a service and its phase are freed, in any order, or
 *     the service is closed, all of it.
 *   - Each allocation of an opening is refused in turn, alone and with all that follow it, also where counts are NULL.
 *     Each such opening must answer that it is out of memory, leave the driver empty, and give back what it took.
 *   - The same of a shared service, of a client, and of likes_shared_close, which takes memory meanwhile. Once the
 *     clients are closed, and the service is closed or freed, in any order, all is given back.
 *   - While a client is opened and gets no memory, no other can be closed. So it isn't lost, and the service can be
 *     closed.
 *   - likes_service_stop writes its counts also where it gets no memory. A thread that has made no call yet opens no
 *     writer then, whose likes it couldn't hand over, and doesn't retire the service, whose last likes it couldn't read.
 *
 * It replaces malloc and its kin, and calls those of the GNU C library by their other names. */
#include "opening.h"

#include <errno.h>
#include <pthread.h>
#include <stdio.h>
#include <stdlib.h>

void *__libc_malloc(size_t size);
void *__libc_calloc(size_t number, size_t size);
void *__libc_realloc(void *block, size_t size);
void *__libc_memalign(size_t alignment, size_t size);
void __libc_free(void *block);

/* Which allocations are refused, counted from 1; how many there were; and how many blocks are there now. */
static size_t first, last, made, blocks;

/* A client that is closed when an allocation is refused, and what that answers. */
static likes_client *closed;
static uint32_t closing;

static bool is_refused(void) {
    made++;
    bool is = first <= made && made <= last;
    if (is && closed != NULL)
        closing = likes_client_close(closed);
    errno = is ? ENOMEM : errno;
    return is;
}

/* Counts a block that is new, if there was memory for it. */
static void *counted(void *block) {
    blocks += block != NULL;
    return block;
}

void *malloc(size_t size) {
    return is_refused() ? NULL : counted(__libc_malloc(size));
}

void *calloc(size_t number, size_t size) {
    return is_refused() ? NULL : counted(__libc_calloc(number, size));
}

void *aligned_alloc(size_t alignment, size_t size) {
    return is_refused() ? NULL : counted(__libc_memalign(alignment, size));
}

void *memalign(size_t alignment, size_t size) {
    return aligned_alloc(alignment, size);
}

int posix_memalign(void **to, size_t alignment, size_t size) {
    void *block = aligned_alloc(alignment, size);
    if (block == NULL)
        return ENOMEM;
    *to = block;
    return 0;
}

void *realloc(void *block, size_t size) {
    if (is_refused())
        return NULL;
    void *moved = __libc_realloc(block, size);
    if (block == NULL)
        counted(moved);
    else if (size == 0 && moved == NULL)
        blocks--;
    return moved;
}

void free(void *block) {
    blocks -= block != NULL;
    __libc_free(block);
}

enum { SEATS = 3, USERS = 1000, PAGES = 100, ROW = 30, ROOM = 64 };

static likes_driver driver;
static likes_seat seats[SEATS];
static likes_phase phase_now;

static void fail(int line, const char *call, const char *text) {
    printf("line %d: %s %s\n", line, call, text);
    exit(1);
}

/* Makes a call that allocates nothing and gives nothing back. */
#define STILL(call)                                                 \
    do {                                                            \
        size_t made_before = made, blocks_before = blocks;          \
        call;                                                       \
        if (made != made_before)                                    \
            fail(__LINE__, #call, "allocates");                     \
        if (blocks != blocks_before)                                \
            fail(__LINE__, #call, "gives memory back");             \
    } while (0)

/* The same, of a call with this answer. */
#define IS(call, expected)                                          \
    do {                                                            \
        uint64_t is;                                                \
        STILL(is = (call));                                         \
        if (is != (expected))                                       \
            fail(__LINE__, #call, "has the wrong answer");          \
    } while (0)

/* Makes a call that frees: it allocates nothing, and gives something back. */
#define FREES(call)                                                 \
    do {                                                            \
        size_t made_before = made, blocks_before = blocks;          \
        call;                                                       \
        if (made != made_before)                                    \
            fail(__LINE__, #call, "allocates");                     \
        if (blocks >= blocks_before)                                \
            fail(__LINE__, #call, "gives nothing back");            \
    } while (0)

/* The initial counts. */
static const uint64_t zeros[PAGES], *counts_of_all = zeros;

/* Opens the service, where these allocations are refused. */
static uint32_t open_service(size_t from, size_t to) {
    static const uint32_t marks[] = {0}, lasts[USERS];
    static const likes_options options = {.seats = SEATS, .users = USERS, .room = ROOM, .hot = 10};
    first = from;
    last = to;
    made = blocks = 0;
    uint32_t status = open_core(options, counts_of_all, PAGES, marks, 1, lasts, USERS, &driver);
    first = last = 0;
    return status;
}

static void take_handles(void) {
    likes_seat extra = {0};
    likes_phase another = {0};
    for (uint32_t i = 0; i < SEATS; i++)
        IS(likes_driver_take_seat(&driver, &seats[i]), LIKES_OK);
    IS(likes_driver_take_seat(&driver, &extra), LIKES_ALL_TAKEN);
    IS(likes_driver_take_seat(&driver, &seats[0]), LIKES_IN_USE);
    IS(likes_driver_take_phase(&driver, &phase_now), LIKES_OK);
    IS(likes_driver_take_phase(&driver, &another), LIKES_ALL_TAKEN);
    IS(likes_driver_take_phase(&driver, &phase_now), LIKES_IN_USE);
}

/* Each kind of request at each seat, one by one and in rows. More looks are asked for than have room. */
static void request(uint64_t phase) {
    likes_answer answer, answers[ROW];
    likes_request row[ROW];
    likes_found found;
    uint32_t page, lasts[ROW];
    for (uint32_t i = 0; i < 300; i++) {
        likes_seat *seat = &seats[i % SEATS];
        IS(likes_seat_last(seat, i, &page), LIKES_OK);
        uint32_t own = (USERS - i % SEATS + SEATS - 1) / SEATS;
        IS(likes_seat_lasts(seat, 2 * i, lasts, ROW), 2 * i + ROW <= own ? LIKES_OK : LIKES_WRONG_RANGE);
        STILL(likes_seat_like(seat, i, i % PAGES));
        STILL(likes_seat_look(seat, i, i % 2 ? 0 : i % PAGES, i, &answer));
        STILL(likes_seat_glance(seat, i, i % PAGES, &answer));
        row[i % ROW] = (likes_request){.tag = i, .user = i, .page = i % 7, .op = i % 4};
        if (i % ROW == ROW - 1)
            STILL(likes_seat_run(seat, row, ROW, answers, ROW));
        if (i % 16 == 0)
            STILL(likes_seat_take_found(seat, &found));
    }
    for (uint32_t i = 0; i < SEATS; i++)
        IS(likes_seat_phase(&seats[i]), phase);
}

/* A phase with requests, and its end. In two of four phases all pages are proposed, and in the others none. */
static void play(uint64_t phase) {
    uint64_t counts[PAGES];
    uint32_t pages[PAGES];
    for (uint32_t page = 0; page < PAGES; page++)
        pages[page] = PAGES - 1 - page;
    IS(likes_version(), LIKES_VERSION);
    IS(likes_driver_phase(&driver), phase);
    IS(likes_phase_now(&phase_now), phase);
    IS(likes_driver_turn(&driver, LIKES_NO_END), LIKES_GOES_ON);
    IS(likes_driver_turn(&driver, 3), LIKES_UNKNOWN_END);
    request(phase);
    IS(likes_driver_propose(&driver, pages, phase % 4 < 2 ? PAGES : 0), LIKES_OK);
    size_t split;
    STILL(split = likes_driver_split_pages(&driver, pages, PAGES));
    if (split < 1 || split > LIKES_MAX_SPLIT)
        fail(__LINE__, "likes_driver_split_pages", "has the wrong answer");
    IS(likes_driver_split_pages(&driver, NULL, 0), 0);
    IS(likes_driver_turn(&driver, phase % 4 < 2 ? LIKES_END_IF_IT_SERVES : LIKES_END), LIKES_ANNOUNCED);
    IS(likes_driver_snapshot(&driver, 0, counts, PAGES), LIKES_NO_MOMENT);
    IS(likes_driver_turn(&driver, LIKES_END_IF_IT_SERVES), LIKES_NOT_ALL_IN);
    for (uint32_t i = 0; i < SEATS; i++)
        IS(likes_seat_turn(&seats[i]), LIKES_BETWEEN);
    IS(likes_driver_snapshot(&driver, 10, counts, 20), phase % 2 == 0 ? LIKES_COUNTED : LIKES_NO_MOMENT);
    IS(likes_driver_snapshot(&driver, PAGES, counts, 1), LIKES_WRONG_RANGE);
    IS(likes_driver_turn(&driver, LIKES_END_IF_IT_SERVES), LIKES_RELEASED);
}

/* All seats leave, and the service ends. */
static void end(void) {
    uint64_t counts[PAGES];
    IS(likes_driver_last_counts(&driver, 0, counts, PAGES), LIKES_NOT_ENDED);
    IS(likes_driver_last_counts(&driver, 1, counts, PAGES), LIKES_WRONG_RANGE);
    for (uint32_t i = 0; i < SEATS; i++) {
        IS(likes_seat_retire(&seats[i]), LIKES_GONE);
        IS(likes_seat_come_back(&seats[i]), LIKES_RUNS);
        IS(likes_seat_retire(&seats[i]), LIKES_GONE);
    }
    IS(likes_driver_turn(&driver, LIKES_END_IF_IT_SERVES), LIKES_ENDED);
    IS(likes_driver_last_counts(&driver, 0, counts, PAGES), LIKES_COUNTED);
    IS(likes_driver_last_counts(&driver, 10, counts, 20), LIKES_COUNTED);
    IS(likes_driver_turn(&driver, LIKES_END_IF_IT_SERVES), LIKES_ENDED);
    IS(likes_driver_snapshot(&driver, 0, counts, PAGES), LIKES_NO_MOMENT);
}

/* The service is closed with all its seats, and its phase is freed before or after that. */
static void close_service(bool is_phase_last) {
    uint64_t counts[PAGES];
    IS(likes_close(&driver, seats, SEATS, counts, PAGES - 1), LIKES_WRONG_PAGES);
    IS(likes_close(&driver, seats, SEATS - 1, counts, PAGES), LIKES_WRONG_SEATS);
    if (!is_phase_last)
        FREES(likes_phase_free(&phase_now));
    uint32_t status;
    FREES(status = likes_close(&driver, seats, SEATS, counts, PAGES));
    if (is_phase_last)
        FREES(likes_phase_free(&phase_now));
    if (status != LIKES_COUNTED || blocks != 0)
        fail(__LINE__, "likes_close", "has the wrong answer, or leaves blocks behind");
}

/* Calls on empty handles, and openings that are refused. */
static void refused(void) {
    static const uint64_t counts[1] = {LIKES_MAX_COUNT + 1};
    likes_options options = {.seats = 1, .users = 1, .room = 1, .hot = 0};
    likes_driver none = {0};
    likes_seat seat = {0};
    likes_phase empty = {0};
    likes_answer answer;
    uint32_t page = 0;
    STILL(likes_seat_free(&seat));
    STILL(likes_driver_free(&none));
    STILL(likes_phase_free(&empty));
    STILL(likes_seat_free(NULL));
    STILL(likes_driver_free(NULL));
    STILL(likes_phase_free(NULL));
    IS(likes_phase_now(&empty), 0);
    IS(likes_seat_like(&seat, 0, 0), LIKES_EMPTY);
    IS(likes_seat_look(&seat, 0, 0, 0, &answer), LIKES_EMPTY);
    IS(likes_seat_last(&seat, 0, &page), LIKES_EMPTY);
    IS(likes_seat_lasts(&seat, 0, &page, 1), LIKES_EMPTY);
    IS(likes_driver_split_pages(&none, &page, 1), 0);
    IS(likes_driver_propose(&none, &page, 1), LIKES_EMPTY);
    IS(likes_driver_turn(&none, LIKES_END_IF_IT_SERVES), LIKES_EMPTY);
    IS(open_core(options, counts, 1, NULL, 0, NULL, 0, &driver), LIKES_IN_USE);
    size_t held = blocks;
    uint32_t status = open_core(options, counts, 1, NULL, 0, NULL, 0, &none);
    if (status != LIKES_WRONG_COUNT || none.at != NULL || blocks != held)
        fail(__LINE__, "an opening with wrong numbers", "has the wrong answer, or leaves blocks behind");
}

/* How far a service has come when it is freed. */
enum stage { OPENED, TAKEN, USED, ENDED, CLOSED, STAGES };

/* Makes every call of likes.h on a service up to a stage, and frees it: the driver and the phase once so many seats are
 * freed, and the phase last if that is one more. */
static void use(enum stage stage, uint32_t driver_after, uint32_t phase_after) {
    if (open_service(0, 0) != LIKES_OK)
        fail(__LINE__, "likes_open", "has failed");
    if (stage >= TAKEN)
        take_handles();
    refused();
    for (uint64_t phase = 0; stage >= USED && phase < 8; phase++)
        play(phase);
    if (stage == USED)
        request(8);
    if (stage >= ENDED)
        end();
    if (stage == CLOSED) {
        close_service(phase_after > 0);
        return;
    }
    for (uint32_t i = 0; i <= SEATS + 1; i++) {
        if (i == phase_after && stage >= TAKEN)
            FREES(likes_phase_free(&phase_now));
        if (i == driver_after)
            FREES(likes_driver_free(&driver));
        if (i < SEATS && stage >= TAKEN)
            FREES(likes_seat_free(&seats[i]));
    }
    if (blocks != 0) {
        printf("stage %d: %zu blocks were not given back\n", (int)stage, blocks);
        exit(1);
    }
}

/* Refuses each of so many allocations of an opening. */
static void refuse(size_t allocations) {
    for (size_t number = 1; number <= allocations; number++) {
        for (int all = 0; all < 2; all++) {
            errno = 0;
            uint32_t status = open_service(number, all ? SIZE_MAX : number);
            if (status != LIKES_NO_MEMORY || driver.at != NULL || blocks != 0 || errno != 0) {
                printf("allocation %zu refused: status %u, %zu blocks left, errno %d\n", number, status, blocks, errno);
                exit(1);
            }
        }
    }
}

static likes_shared shared;

/* Opens a shared service, where these allocations are refused. */
static uint32_t share(size_t from, size_t to) {
    static const uint32_t marks[] = {0};
    likes_options options = {.counts = zeros, .pages = PAGES, .marks = marks, .marks_len = 1};
    options.seats = SEATS;
    options.users = USERS;
    options.room = ROOM;
    first = from;
    last = to;
    made = 0;
    uint32_t status = likes_shared_open(&options, &shared);
    first = last = 0;
    return status;
}

/* Opens a client, where these allocations are refused. */
static uint32_t open_client(likes_client *client, size_t from, size_t to) {
    first = from;
    last = to;
    made = 0;
    uint32_t status = likes_client_open(&shared, client);
    first = last = 0;
    return status;
}

/* Closes the shared service, where these allocations are refused. */
static uint32_t close_shared(size_t from, size_t to) {
    uint64_t counts[PAGES];
    first = from;
    last = to;
    made = 0;
    uint32_t status = likes_shared_close(&shared, counts, PAGES);
    first = last = 0;
    return status;
}

/* Each allocation of an opening of a shared service, and of a client, is refused. */
static void refuse_sharing(void) {
    likes_client client = {0};
    blocks = 0;
    if (share(1, SIZE_MAX) != LIKES_NO_MEMORY || blocks != 0)
        fail(__LINE__, "likes_shared_open", "has the wrong answer, or leaves blocks behind");
    share(0, 0);
    size_t of_shared = made, held;
    likes_shared_free(&shared);
    errno = 0;
    for (size_t number = 1; number <= of_shared; number++)
        if (share(number, number) != LIKES_NO_MEMORY || shared.at != NULL || blocks != 0 || errno != 0)
            fail(__LINE__, "likes_shared_open", "has the wrong answer, leaves blocks behind or changes errno");
    share(0, 0);
    held = blocks;
    open_client(&client, 0, 0);
    size_t of_client = made;
    FREES(likes_client_close(&client));
    for (size_t number = 1; number <= of_client; number++)
        if (open_client(&client, number, number) != LIKES_NO_MEMORY || client.at != NULL || blocks != held || errno != 0)
            fail(__LINE__, "likes_client_open", "has the wrong answer, leaves blocks behind or changes errno");
    FREES(likes_shared_free(&shared));
    if (blocks != 0)
        fail(__LINE__, "likes_shared_free", "leaves blocks behind");
}

/* The calls of a client allocate nothing. */
static void call_client(likes_client *client) {
    likes_answer answers[ROW];
    likes_request row[ROW];
    likes_pair likes[ROW];
    likes_found found;
    uint64_t counts[PAGES], phase;
    uint32_t page, pages[PAGES];
    for (uint32_t i = 0; i < ROW; i++) {
        row[i] = (likes_request){.tag = i, .user = SEATS * i, .page = i % 7, .op = i % 4};
        likes[i] = (likes_pair){SEATS * i, i % PAGES};
    }
    IS(likes_client_lock(client, 0), LIKES_OK);
    STILL(likes_client_run(client, 0, row, ROW, answers, ROW));
    IS(likes_client_like_row(client, 0, likes, ROW, NULL), LIKES_LIKED);
    IS(likes_client_like(client, 0, 0, 1), LIKES_LIKED);
    IS(likes_client_unlock(client, 0), LIKES_OK);
    IS(likes_client_like(client, 1, 1, 1), LIKES_LIKED);
    STILL(likes_client_look(client, 1, 1, 1, 1, answers));
    STILL(likes_client_glance(client, 1, 1, 1, answers));
    IS(likes_client_last(client, 1, 1, &page), LIKES_OK);
    IS(likes_client_lasts(client, 1, 0, pages, ROW), LIKES_OK);
    IS(likes_client_take_found(client, 0, &found), LIKES_NONE);
    IS(likes_client_turn(client, 2), LIKES_RUNS);
    IS(likes_client_phase(client, 2, &phase), LIKES_OK);
    IS(likes_client_drive(client, LIKES_NO_END), LIKES_GOES_ON);
    IS(likes_client_snapshot(client, 0, counts, PAGES), LIKES_NO_MOMENT);
    IS(likes_client_propose(client, pages, 0), LIKES_OK);
    STILL(likes_client_split_pages(client, pages, PAGES, NULL));
    IS(likes_client_last_counts(client, 0, counts, PAGES), LIKES_NOT_ENDED);
}

/* Each allocation of one more client is refused. This one can't be closed meanwhile: the other is at the desk. */
static void refuse_beside(likes_client *client) {
    likes_client more = {0};
    open_client(&more, 0, 0);
    size_t of_client = made;
    FREES(likes_client_close(&more));
    closed = client;
    for (size_t number = 1; number <= of_client; number++)
        if (open_client(&more, number, number) != LIKES_NO_MEMORY || closing != LIKES_BUSY)
            fail(__LINE__, "likes_client_open", "has the wrong answer, or lets another client be closed");
    closed = NULL;
}

/* A shared service is used by two clients, and closed, or freed before its last client is closed. */
static void use_shared(bool is_closed) {
    likes_client one = {0}, two = {0};
    if (share(0, 0) != LIKES_OK || open_client(&one, 0, 0) != LIKES_OK || open_client(&two, 0, 0) != LIKES_OK)
        fail(__LINE__, "likes_shared_open", "has failed");
    refuse_beside(&one);
    call_client(&one);
    call_client(&two);
    FREES(likes_client_close(&one));
    if (is_closed) {
        for (uint32_t seat = 0; seat < SEATS; seat++)
            IS(likes_client_retire(&two, seat), LIKES_GONE);
        IS(likes_client_drive(&two, LIKES_END_IF_IT_SERVES), LIKES_ENDED);
        if (close_shared(0, 0) != LIKES_OPEN_CLIENT)
            fail(__LINE__, "likes_shared_close", "has the wrong answer");
    } else {
        FREES(likes_shared_free(&shared));
    }
    FREES(likes_client_close(&two));
    if (is_closed) {
        size_t held = blocks;
        errno = 0;
        if (close_shared(1, SIZE_MAX) != LIKES_NO_MEMORY || blocks != held || errno != 0)
            fail(__LINE__, "likes_shared_close", "has the wrong answer, leaves blocks behind or changes errno");
        if (close_shared(0, 0) != LIKES_COUNTED)
            fail(__LINE__, "likes_shared_close", "has the wrong answer");
    }
    if (blocks != 0)
        fail(__LINE__, "the end of a shared service", "leaves blocks behind");
}

/* A thread's first calls, where there is no memory. */
static void *call_without_memory(void *at) {
    likes_service *service = (likes_service *)at;
    likes_writer *writer = NULL;
    first = 1;
    last = SIZE_MAX;
    uint32_t opened = likes_writer_open(service, &writer), retired = likes_service_retire(service);
    first = last = 0;
    if (opened != LIKES_NO_MEMORY || writer != NULL || retired != LIKES_NO_MEMORY)
        fail(__LINE__, "a thread's first call", "has the wrong answer");
    return NULL;
}

/* A service is stopped where there is no memory. */
static void stop_without_memory(void) {
    likes_options options = {.pages = PAGES, .users = USERS, .seats = SEATS};
    uint64_t counts[PAGES] = {0};
    likes_service *service = NULL;
    if (likes_service_open(&options, &service) != LIKES_OK || likes_service_like(service, 1, 2) != LIKES_LIKED)
        fail(__LINE__, "likes_service_open", "has failed");
    pthread_t thread;
    if (pthread_create(&thread, NULL, call_without_memory, service) != 0 || pthread_join(thread, NULL) != 0)
        fail(__LINE__, "a thread", "has not begun or ended");
    if (likes_service_like(service, 1, 2) != LIKES_LIKED)
        fail(__LINE__, "likes_service_like", "has failed");
    made = 0;
    first = 1;
    last = SIZE_MAX;
    errno = 0;
    uint32_t status = likes_service_stop(service, counts, PAGES);
    first = last = 0;
    if (status != LIKES_OK || counts[1] != 0 || counts[2] != 2 || errno != 0)
        fail(__LINE__, "likes_service_stop", "has the wrong counts, or changes errno");
    likes_service_close(service);
}

int main(void) {
    for (int stage = OPENED; stage < STAGES; stage++)
        for (uint32_t driver_after = 0; driver_after <= SEATS; driver_after++)
            for (uint32_t phase_after = 0; phase_after <= SEATS + 1; phase_after++)
                use((enum stage)stage, driver_after, phase_after);
    if (open_service(0, 0) != LIKES_OK)
        fail(__LINE__, "likes_open", "has failed");
    size_t allocations = made, held = blocks;
    likes_driver_free(&driver);
    refuse(allocations);
    counts_of_all = NULL;
    if (open_service(0, 0) != LIKES_OK || made != allocations + 1 || blocks != held)
        fail(__LINE__, "likes_open", "without counts takes another number of blocks, or leaves some behind");
    likes_driver_free(&driver);
    refuse(allocations + 1);
    refuse_sharing();
    use_shared(false);
    use_shared(true);
    stop_without_memory();
    printf("each of %zu allocations refused\n", allocations);
    return 0;
}
