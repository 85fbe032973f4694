/* Compares the layouts of likes.h with the library at work. The bytes of options, requests, answers and found looks are
 * written and read at offsets that are numbers here, and a field of likes.h is named only to compare its offset with
 * these. Each value differs from every other, so that no mix-up goes unseen.
 *
 * If something is elsewhere, it prints a line and exits with status 1. */
#include "harness.h"

/* The places of the fields, and the sizes. */
enum { COUNTS = 0, PAGES = 8, MARKS = 16, MARKS_LEN = 24, LASTS = 32, LASTS_LEN = 40 };
enum { USERS = 48, SEATS = 52, ROOM = 56, HOT = 60, PERIOD = 64, OPTIONS_RESERVED = 68, OPTIONS = 112 };
enum { TAG = 0, USER = 8, PAGE = 12, OP = 16, REQUEST_RESERVED = 20, REQUEST = 24 };
enum { COUNT = 0, LAST = 8, STATUS = 12, ANSWER = 16 };
enum { FOUND_TAG = 0, FOUND_COUNT = 8, ASKED = 16, RAN = 24, FOUND_USER = 32, FOUND_PAGE = 36, FOUND_LAST = 40 };
enum { FOUND_RESERVED = 44, FOUND = 48, HANDLE = 8, DRIVER = 16, PAIR_USER = 0, PAIR_PAGE = 4, PAIR = 8 };

/* Bytes of any structure. */
typedef union {
    unsigned char bytes[OPTIONS];
    uint64_t aligned[OPTIONS / 8];
} row;

static void put32(row *at, size_t place, uint32_t number) {
    memcpy(at->bytes + place, &number, sizeof number);
}

static void put64(row *at, size_t place, uint64_t number) {
    memcpy(at->bytes + place, &number, sizeof number);
}

static void put_at(row *at, size_t place, const void *pointer) {
    memcpy(at->bytes + place, &pointer, sizeof pointer);
}

static uint32_t get32(const row *at, size_t place) {
    uint32_t number;
    memcpy(&number, at->bytes + place, sizeof number);
    return number;
}

static uint64_t get64(const row *at, size_t place) {
    uint64_t number;
    memcpy(&number, at->bytes + place, sizeof number);
    return number;
}

/* The places in likes.h are those above. */
static void header(void) {
    IS(sizeof(likes_options), OPTIONS);
    IS(offsetof(likes_options, counts), COUNTS);
    IS(offsetof(likes_options, pages), PAGES);
    IS(offsetof(likes_options, marks), MARKS);
    IS(offsetof(likes_options, marks_len), MARKS_LEN);
    IS(offsetof(likes_options, lasts), LASTS);
    IS(offsetof(likes_options, lasts_len), LASTS_LEN);
    IS(offsetof(likes_options, period_us), PERIOD);
    IS(offsetof(likes_options, seats), SEATS);
    IS(offsetof(likes_options, users), USERS);
    IS(offsetof(likes_options, room), ROOM);
    IS(offsetof(likes_options, hot), HOT);
    IS(offsetof(likes_options, reserved), OPTIONS_RESERVED);
    IS(sizeof(likes_request), REQUEST);
    IS(offsetof(likes_request, tag), TAG);
    IS(offsetof(likes_request, user), USER);
    IS(offsetof(likes_request, page), PAGE);
    IS(offsetof(likes_request, op), OP);
    IS(offsetof(likes_request, reserved), REQUEST_RESERVED);
    IS(sizeof(likes_answer), ANSWER);
    IS(offsetof(likes_answer, count), COUNT);
    IS(offsetof(likes_answer, last), LAST);
    IS(offsetof(likes_answer, status), STATUS);
    IS(sizeof(likes_found), FOUND);
    IS(offsetof(likes_found, tag), FOUND_TAG);
    IS(offsetof(likes_found, count), FOUND_COUNT);
    IS(offsetof(likes_found, asked), ASKED);
    IS(offsetof(likes_found, ran), RAN);
    IS(offsetof(likes_found, user), FOUND_USER);
    IS(offsetof(likes_found, page), FOUND_PAGE);
    IS(offsetof(likes_found, last), FOUND_LAST);
    IS(offsetof(likes_found, reserved), FOUND_RESERVED);
    IS(sizeof(likes_driver), DRIVER);
    IS(offsetof(likes_driver, at), 0);
    IS(offsetof(likes_driver, seats), 8);
    IS(sizeof(likes_seat), HANDLE);
    IS(sizeof(likes_phase), HANDLE);
    IS(sizeof(likes_client), HANDLE);
    IS(sizeof(likes_shared), DRIVER);
    IS(offsetof(likes_shared, at), 0);
    IS(offsetof(likes_shared, seats), 8);
    IS(sizeof(likes_pair), PAIR);
    IS(offsetof(likes_pair, user), PAIR_USER);
    IS(offsetof(likes_pair, page), PAIR_PAGE);
}

/* A service with 3 seats, 30 users, room for 5 looks, and 7 pages, of which page 2 is marked and none gets hot. Of the
 * first 6 users of seat 1, only user 7 has a last like. */
static const uint64_t counts[7] = {100, 200, 300, 400, 500, 600, 700};
static const uint32_t marks[] = {2};
static uint32_t lasts[30];
static void *driver[2], *seats[4], *phase;

static uint32_t open_by(const row *options) {
    memset(lasts, 0xff, sizeof lasts);
    lasts[7] = 4;
    return likes_open((const likes_options *)options, (likes_driver *)driver);
}

static row right_options(void) {
    row options = {{0}};
    put_at(&options, COUNTS, counts);
    put64(&options, PAGES, 7);
    put_at(&options, MARKS, marks);
    put64(&options, MARKS_LEN, 1);
    put_at(&options, LASTS, lasts);
    put64(&options, LASTS_LEN, 30);
    put32(&options, SEATS, 3);
    put32(&options, USERS, 30);
    put32(&options, ROOM, 5);
    put32(&options, HOT, UINT32_MAX);
    put32(&options, PERIOD, UINT32_MAX); /* which only a service takes */
    return options;
}

/* Each of the fields is refused for what is too much for it alone. So is each reserved byte that is set. */
static void options(void) {
    row it = right_options();
    for (size_t place = OPTIONS_RESERVED; place < OPTIONS; place++) {
        it.bytes[place] = (unsigned char)(1 << place % 8);
        IS(open_by(&it), 109); /* LIKES_WRONG_RESERVED */
        it.bytes[place] = 0;
    }
    put32(&it, SEATS, 65);
    IS(open_by(&it), 113); /* LIKES_WRONG_SEATS */
    it = right_options();
    put32(&it, USERS, 0);
    IS(open_by(&it), 114); /* LIKES_WRONG_USERS */
    it = right_options();
    put32(&it, ROOM, 4097);
    IS(open_by(&it), 115); /* LIKES_WRONG_ROOM */
    it = right_options();
    put32(&it, HOT, 1000001);
    IS(open_by(&it), 116); /* LIKES_WRONG_HOT */
    it = right_options();
    put32(&it, USERS, 31);
    IS(open_by(&it), 117); /* LIKES_WRONG_LASTS */
    IS(driver[0] == NULL && driver[1] == NULL, true);
}

/* The right options, of which the service shows the values at work: so many seats, users and looks that wait. */
static void open(void) {
    row it = right_options();
    IS(open_by(&it), 0);
    IS(driver[0] != NULL, true);
    IS((uint64_t)(uintptr_t)driver[1], 3);
    for (int i = 0; i < 3; i++)
        IS(likes_driver_take_seat((likes_driver *)driver, (likes_seat *)&seats[i]), 0);
    IS(likes_driver_take_seat((likes_driver *)driver, (likes_seat *)&seats[3]), 17); /* LIKES_ALL_TAKEN */
    IS(likes_driver_take_phase((likes_driver *)driver, (likes_phase *)&phase), 0);
    IS(likes_seat_like((likes_seat *)&seats[2], 29, 1), 1);   /* LIKES_LIKED */
    IS(likes_seat_like((likes_seat *)&seats[0], 30, 1), 103); /* LIKES_UNKNOWN_USER */
}

/* Runs one request, of the numbers at its places, and gives its answer's bytes. All else of them is set. */
static row run(int seat, uint64_t tag, uint32_t user, uint32_t page, uint32_t op, uint32_t reserved) {
    row request, answer;
    memset(&request, 0xa5, sizeof request);
    memset(&answer, 0xa5, sizeof answer);
    put64(&request, TAG, tag);
    put32(&request, USER, user);
    put32(&request, PAGE, page);
    put32(&request, OP, op);
    put32(&request, REQUEST_RESERVED, reserved);
    size_t done = likes_seat_run((likes_seat *)&seats[seat], (const likes_request *)&request, 1,
                                         (likes_answer *)&answer, 1);
    IS(done, get32(&answer, STATUS) == 6 ? 0 : 1); /* LIKES_NO_ROOM */
    for (size_t place = ANSWER; place < sizeof answer; place++)
        IS(answer.bytes[place], 0xa5);
    return answer;
}

#define ANSWERS(count, last, status)                \
    do {                                            \
        IS(get64(&answer, COUNT), count);           \
        IS(get32(&answer, LAST), last);             \
        IS(get32(&answer, STATUS), status);         \
    } while (0)

/* Requests of each kind, in a joined phase: each number is read from its place, and each answer stands in its own. */
static void requests(void) {
    row answer = run(1, 9, 10, 6, 0, 0);
    ANSWERS(0, 0, 1); /* LIKES_LIKED */
    answer = run(1, 11, 10, 2, 1, 0);
    ANSWERS(300, 6, 2); /* LIKES_SEEN */
    answer = run(1, 12, 13, 6, 2, 0);
    ANSWERS(701, UINT32_MAX, 2);
    answer = run(1, 2, 31, 6, 0, 0);
    ANSWERS(0, 0, 103); /* LIKES_UNKNOWN_USER */
    answer = run(1, 2, 11, 6, 0, 0);
    ANSWERS(0, 0, 104); /* LIKES_OTHER_SEAT */
    answer = run(1, 2, 10, 7, 0, 0);
    ANSWERS(0, 0, 105); /* LIKES_UNKNOWN_PAGE */
    answer = run(1, 2, 10, 6, 3, 0);
    ANSWERS(0, 0, 106); /* LIKES_UNKNOWN_OP */
    for (int bit = 0; bit < 32; bit++) {
        answer = run(1, 2, 10, 6, 0, UINT32_C(1) << bit);
        ANSWERS(0, 0, 106);
    }
    for (int bit = 2; bit < 32; bit++) {
        answer = run(1, 2, 10, 6, UINT32_C(1) << bit, 0);
        ANSWERS(0, 0, 106);
    }
}

/* Goes on to the next phase. */
static void change(void) {
    uint64_t before = likes_phase_now((likes_phase *)&phase);
    IS(likes_driver_turn((likes_driver *)driver, 1), 10); /* LIKES_ANNOUNCED */
    for (int i = 0; i < 3; i++)
        IS(likes_seat_turn((likes_seat *)&seats[i]), 5);   /* LIKES_BETWEEN */
    IS(likes_driver_turn((likes_driver *)driver, 0), 12); /* LIKES_RELEASED */
    IS(likes_phase_now((likes_phase *)&phase), before + 1);
}

/* Four requests and four answers: where each of them begins. */
static void arrays(void) {
    static const uint32_t users[] = {10, 13, 16, 10}, pages[] = {6, 5, 3, 0}, last[] = {6, 3, UINT32_MAX, 6}, op = 2;
    static const uint64_t shown[] = {701, 600, 401, 100};
    uint64_t requests[4 * REQUEST / 8] = {0}, answers[4 * ANSWER / 8] = {0};
    IS(likes_seat_like((likes_seat *)&seats[1], 13, 3), 1); /* LIKES_LIKED */
    for (int n = 0; n < 4; n++) {
        unsigned char *at = (unsigned char *)requests + n * REQUEST;
        memcpy(at + USER, &users[n], 4);
        memcpy(at + PAGE, &pages[n], 4);
        memcpy(at + OP, &op, 4);
    }
    size_t done = likes_seat_run((likes_seat *)&seats[1], (const likes_request *)requests, 4,
                                         (likes_answer *)answers, 4);
    IS(done, 4);
    for (int n = 0; n < 4; n++) {
        row answer;
        memcpy(&answer, (unsigned char *)answers + n * ANSWER, ANSWER);
        ANSWERS(shown[n], last[n], 2); /* LIKES_SEEN */
    }
}

/* Looks that wait, of which the room has five, and a found one, whose numbers all differ. */
static void found(void) {
    const uint64_t tag = UINT64_C(0x0123456789abcdef);
    row answer, it;
    change();
    change();
    change();
    answer = run(1, tag, 16, 2, 1, 0);
    ANSWERS(0, 0, 3); /* LIKES_WAITS */
    for (uint32_t n = 0; n < 4; n++) {
        answer = run(1, n, 10, 2, 1, 0);
        ANSWERS(0, 0, 3);
    }
    answer = run(1, 5, 10, 2, 1, 0);
    ANSWERS(0, 0, 6); /* LIKES_NO_ROOM */
    answer = run(1, 0, 16, 2, 0, 0);
    ANSWERS(0, 0, 1); /* LIKES_LIKED */
    answer = run(1, 0, 16, 5, 0, 0);
    ANSWERS(0, 0, 1);
    change();
    IS(likes_seat_turn((likes_seat *)&seats[1]), 4); /* LIKES_RUNS */
    memset(&it, 0xa5, sizeof it);
    IS(likes_seat_take_found((likes_seat *)&seats[1], (likes_found *)&it), true);
    IS(get64(&it, FOUND_TAG), tag);
    IS(get64(&it, FOUND_COUNT), 301);
    IS(get64(&it, ASKED), 3);
    IS(get64(&it, RAN), 4);
    IS(get32(&it, FOUND_USER), 16);
    IS(get32(&it, FOUND_PAGE), 2);
    IS(get32(&it, FOUND_LAST), 5);
    IS(get32(&it, FOUND_RESERVED), 0);
    IS(it.bytes[FOUND - 1], 0);
    for (size_t place = FOUND; place < sizeof it; place++)
        IS(it.bytes[place], 0xa5);
}

/* Last likes, those of the opening too: numbers of 4 bytes, one behind the other. */
static void last_likes(void) {
    static const uint32_t shown[] = {UINT32_MAX, 4, 6, 3, 5};
    uint32_t pages[7];
    memset(pages, 0xa5, sizeof pages);
    IS(likes_seat_lasts((likes_seat *)&seats[1], 1, pages + 1, 5), 0);
    IS(pages[0], 0xa5a5a5a5);
    IS(pages[6], 0xa5a5a5a5);
    for (uint32_t n = 0; n < 5; n++) {
        IS(pages[n + 1], shown[n]);
        IS(likes_seat_last((likes_seat *)&seats[1], 3 * n + 4, pages + n + 1), 0);
        IS(pages[n + 1], shown[n]);
    }
    IS(pages[6], 0xa5a5a5a5);
    IS(likes_seat_last((likes_seat *)&seats[1], 3, pages), 104); /* LIKES_OTHER_SEAT */
    IS(pages[0], 0xa5a5a5a5);
}

/* The pages that are split, and those that are proposed: numbers of 4 bytes, one behind the other. */
static void split_pages(void) {
    static const uint32_t proposed[] = {UINT32_MAX, 5, UINT32_MAX};
    uint32_t pages[4];
    memset(pages, 0xa5, sizeof pages);
    IS(likes_driver_split_pages((likes_driver *)driver, pages + 1, 2), 1);
    IS(pages[0], 0xa5a5a5a5);
    IS(pages[1], 2);
    IS(pages[2], 0xa5a5a5a5);
    void *other_driver[2] = {NULL, NULL}, *seat = NULL;
    row it = right_options();
    put32(&it, SEATS, 1);
    put_at(&it, MARKS, NULL);
    put64(&it, MARKS_LEN, 0);
    put_at(&it, LASTS, NULL);
    put64(&it, LASTS_LEN, 0);
    IS(likes_open((likes_options *)&it, (likes_driver *)other_driver), 0);
    IS(likes_driver_take_seat((likes_driver *)other_driver, (likes_seat *)&seat), 0);
    IS(likes_driver_propose((likes_driver *)other_driver, proposed, 1), 0);
    IS(likes_driver_turn((likes_driver *)other_driver, 1), 9); /* LIKES_GOES_ON */
    IS(likes_driver_propose((likes_driver *)other_driver, proposed, 3), 0);
    IS(likes_driver_turn((likes_driver *)other_driver, 1), 10); /* LIKES_ANNOUNCED */
    IS(likes_seat_turn((likes_seat *)&seat), 5);                 /* LIKES_BETWEEN */
    IS(likes_driver_turn((likes_driver *)other_driver, 0), 12); /* LIKES_RELEASED */
    IS(likes_driver_split_pages((likes_driver *)other_driver, pages + 1, 2), 1);
    IS(pages[1], 5);
    IS(pages[2], 0xa5a5a5a5);
    likes_seat_free((likes_seat *)&seat);
    likes_driver_free((likes_driver *)other_driver);
}

/* Makes many likes of page 1 and one of page 0, of a service in which so many make a page hot. Whether one gets hot. */
static bool gets_hot(uint32_t likes) {
    void *hot_driver[2] = {NULL, NULL}, *seat = NULL;
    row it = right_options(), answer = {{0}};
    uint32_t turn = 9; /* LIKES_GOES_ON */
    put32(&it, SEATS, 1);
    put32(&it, HOT, likes);
    put_at(&it, MARKS, NULL);
    put64(&it, MARKS_LEN, 0);
    put_at(&it, LASTS, NULL);
    put64(&it, LASTS_LEN, 0);
    IS(likes_open((likes_options *)&it, (likes_driver *)hot_driver), 0);
    IS(likes_driver_take_seat((likes_driver *)hot_driver, (likes_seat *)&seat), 0);
    IS(likes_seat_like((likes_seat *)&seat, 0, 0), 1); /* LIKES_LIKED */
    for (int choice = 0; choice < 20 && turn == 9; choice++) {
        for (uint32_t n = 0; n < 20000; n++)
            IS(likes_seat_like((likes_seat *)&seat, 0, 1), 1);
        turn = likes_driver_turn((likes_driver *)hot_driver, 1);
    }
    if (turn != 9) {
        IS(turn, 10);                                              /* LIKES_ANNOUNCED */
        IS(likes_seat_turn((likes_seat *)&seat), 5);               /* LIKES_BETWEEN */
        IS(likes_driver_turn((likes_driver *)hot_driver, 0), 12); /* LIKES_RELEASED */
        IS(likes_seat_look((likes_seat *)&seat, 0, 0, 0, (likes_answer *)&answer), 2); /* LIKES_SEEN */
        ANSWERS(101, 1, 2);
        IS(likes_seat_look((likes_seat *)&seat, 0, 1, 0, (likes_answer *)&answer), 3); /* LIKES_WAITS */
        ANSWERS(0, 0, 3);
    }
    likes_seat_free((likes_seat *)&seat);
    likes_driver_free((likes_driver *)hot_driver);
    IS(seat == NULL && hot_driver[0] == NULL && hot_driver[1] == NULL, true);
    return turn != 9;
}

/* A client counts a row of likes, of user 4 and page 5. */
static void pairs(void) {
    void *shared[2] = {NULL, NULL}, *client = NULL;
    row options = right_options(), like = {{0}};
    uint32_t page = 9;
    size_t counted = 9;
    memset(lasts, 0xff, sizeof lasts);
    IS(likes_shared_open((const likes_options *)&options, (likes_shared *)shared), 0);
    IS(shared[0] != NULL && (uintptr_t)shared[1] == 3, true);
    IS(likes_client_open((likes_shared *)shared, (likes_client *)&client), 0);
    put32(&like, PAIR_USER, 4);
    put32(&like, PAIR_PAGE, 5);
    IS(likes_client_like_row((likes_client *)&client, 1, (const likes_pair *)&like, 1, &counted), 1); /* LIKES_LIKED */
    IS(counted, 1);
    IS(likes_client_last((likes_client *)&client, 1, 4, &page), 0);
    IS(page, 5);
    IS(likes_client_close((likes_client *)&client), 0);
    likes_shared_free((likes_shared *)shared);
    IS(client == NULL && shared[0] == NULL && shared[1] == NULL, true);
}

static void end(void) {
    for (int i = 0; i < 3; i++)
        likes_seat_free((likes_seat *)&seats[i]);
    likes_driver_free((likes_driver *)driver);
    likes_phase_free((likes_phase *)&phase);
    IS(driver[0] == NULL && driver[1] == NULL && phase == NULL, true);
    IS(seats[0] == NULL && seats[1] == NULL && seats[2] == NULL, true);
}

int main(void) {
    header();
    options();
    open();
    requests();
    arrays();
    found();
    last_likes();
    split_pages();
    end();
    pairs();
    IS(gets_hot(512), true);
    IS(gets_hot(1000000), false);
    IS(gets_hot(0), true);
    IS(gets_hot(UINT32_MAX), false);
    puts("all fields in their places");
    return 0;
}
