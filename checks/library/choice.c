/* Simulates how a live service finds its popular pages, without threads and clocks. It has 1,000,000 pages, and four
 * seats run 120,000 drawn requests between two choices, as many as four threads make in about a millisecond.
 *
 * It exits with status 0 only if
 *   - at Zipf 1, 1.4 and 2, over 100 placements of the pages, 95 % of the likes that the best 64 pages get are sliced,
 *     and on average at most one page has a new slot in each split phase;
 *   - a page that suddenly gets a tenth of all likes has a slot after two choices in the median, and one that gets a
 *     fiftieth after ten;
 *   - popular pages that become others each 100 choices are followed to 90 %;
 *   - at Zipf 0 there is no split phase. */
#include "harness.h"

#include <math.h>

enum { PAGES = 1000000, SEATS = 4, USERS = 1000, REQUESTS = 120000, ROW = 100, BEST = 64, RING = 1 << 22 };

/* After so many choices what is popular has settled: each choice forgets a sixteenth of what came before. */
enum { SETTLED = 32 };

/* The ranks of the pages that are asked for, one after the other: rank 0 is the most popular. */
static uint32_t ranks[RING];
static uint64_t random_state = 1;

typedef struct {
    likes_driver driver;
    likes_seat seats[SEATS];
    uint64_t factor, shift; /* by which a rank has its page */
    uint32_t next;          /* in the ring of ranks */
    uint32_t sudden, times; /* a page that gets one in so many requests, where that isn't 0 */
    uint32_t split[LIKES_MAX_SPLIT];
    size_t split_pages;
} simulation;

/* What was seen in some time. */
typedef struct {
    uint64_t sliced, best, phases, entered;
} seen;

/* Whether each page is split now. */
static bool is_split[PAGES];

static void fail(const char *text) {
    fprintf(stderr, "choice: %s\n", text);
    exit(1);
}

/* Draws all ranks by Zipf's law with this exponent. */
static void draw(double exponent) {
    static double sums[PAGES];
    double sum = 0;
    for (uint32_t rank = 0; rank < PAGES; rank++)
        sums[rank] = sum += pow(rank + 1.0, -exponent);
    for (uint32_t n = 0; n < RING; n++)
        ranks[n] = drawn_rank(&random_state, sums, PAGES);
}

/* Puts the pages anywhere: a factor that shares no divisor with their number moves no two to one place. */
static void place_pages(simulation *it) {
    do
        it->factor = below(&random_state, PAGES);
    while (it->factor % 2 == 0 || it->factor % 5 == 0);
    it->shift = below(&random_state, PAGES);
}

static uint32_t page_of(const simulation *it, uint32_t rank) {
    return (uint32_t)((rank * it->factor + it->shift) % PAGES);
}

static void open_service(simulation *it) {
    static const uint64_t counts[PAGES];
    likes_options options = {.seats = SEATS, .users = USERS, .room = 4096, .hot = 512};
    memset(it, 0, sizeof *it);
    if (open_core(options, counts, PAGES, NULL, 0, NULL, 0, &it->driver) != LIKES_OK)
        fail("no service was opened");
    for (uint32_t number = 0; number < SEATS; number++)
        if (likes_driver_take_seat(&it->driver, &it->seats[number]) != LIKES_OK)
            fail("no seat was taken");
    place_pages(it);
    it->next = (uint32_t)below(&random_state, RING);
}

static void free_service(simulation *it) {
    for (uint32_t number = 0; number < SEATS; number++)
        likes_seat_free(&it->seats[number]);
    likes_driver_free(&it->driver);
    for (size_t n = 0; n < it->split_pages; n++)
        is_split[it->split[n]] = false;
}

/* Notes which pages are split now, and counts those that were not split before. */
static void note_split(simulation *it, seen *to) {
    uint32_t pages[LIKES_MAX_SPLIT];
    size_t many = likes_driver_phase(&it->driver) % 2 == 1
                      ? likes_driver_split_pages(&it->driver, pages, LIKES_MAX_SPLIT)
                      : 0;
    for (size_t n = 0; n < many; n++)
        to->entered += !is_split[pages[n]];
    for (size_t n = 0; n < it->split_pages; n++)
        is_split[it->split[n]] = false;
    for (size_t n = 0; n < many; n++)
        is_split[pages[n]] = true;
    memcpy(it->split, pages, many * sizeof *pages);
    it->split_pages = many;
    to->phases += many > 0;
}

/* Ends the phase, and the joined one after it: to the next split phase, or on in a joined one where nothing is popular. */
static void change_phases(simulation *it) {
    uint32_t told;
    do {
        told = likes_driver_turn(&it->driver, LIKES_END_IF_IT_SERVES);
        if (told == LIKES_GOES_ON)
            return;
        for (uint32_t number = 0; number < SEATS; number++)
            likes_seat_turn(&it->seats[number]);
    } while (told != LIKES_RELEASED || likes_driver_phase(&it->driver) % 2 == 0);
}

static uint32_t next_page(simulation *it, seen *to) {
    uint32_t rank = ranks[it->next++ % RING], page = page_of(it, rank);
    if (it->times > 0 && below(&random_state, it->times) == 0)
        page = it->sudden;
    else
        to->best += rank < BEST;
    to->sliced += is_split[page];
    return page;
}

/* All requests between two choices, which are likes. */
static void run(simulation *it, seen *to) {
    likes_request requests[ROW];
    likes_answer answers[ROW];
    memset(requests, 0, sizeof requests);
    note_split(it, to);
    for (uint32_t row = 0; row < REQUESTS / ROW; row++) {
        uint32_t number = row % SEATS;
        for (size_t n = 0; n < ROW; n++) {
            requests[n].user = number + SEATS * (uint32_t)below(&random_state, USERS / SEATS);
            requests[n].page = next_page(it, to);
        }
        if (likes_seat_run(&it->seats[number], requests, ROW, answers, ROW) != ROW)
            fail("a like was not run");
    }
    change_phases(it);
}

static seen run_times(simulation *it, uint32_t times) {
    seen made = {0, 0, 0, 0};
    for (uint32_t n = 0; n < times; n++)
        run(it, &made);
    return made;
}

static void add(seen *to, seen more) {
    to->sliced += more.sliced;
    to->best += more.best;
    to->phases += more.phases;
    to->entered += more.entered;
}

/* Whether a figure is reached, which is told. */
static bool reaches(const char *what, double exponent, double figure, bool is_reached) {
    printf("Zipf %g, %s: %.2f%s\n", exponent, what, figure, is_reached ? "" : ", which is not enough");
    fflush(stdout);
    return is_reached;
}

static bool steady(double exponent) {
    seen all = {0, 0, 0, 0};
    for (int placement = 0; placement < 100; placement++) {
        simulation it;
        open_service(&it);
        run_times(&it, SETTLED);
        add(&all, run_times(&it, 10));
        free_service(&it);
    }
    double sliced = 100.0 * (double)all.sliced / (double)all.best, entered = (double)all.entered / (double)all.phases;
    bool is_found = reaches("sliced of what the best 64 pages get, percent", exponent, sliced, sliced >= 95);
    return reaches("pages with a new slot in a split phase", exponent, entered, entered <= 1) && is_found;
}

static bool moving(double exponent) {
    seen all = {0, 0, 0, 0};
    simulation it;
    open_service(&it);
    run_times(&it, 100);
    for (int moves = 0; moves < 20; moves++) {
        place_pages(&it);
        add(&all, run_times(&it, 100));
    }
    free_service(&it);
    double sliced = 100.0 * (double)all.sliced / (double)all.best;
    return reaches("sliced where the pages become others each 100 choices, percent", exponent, sliced, sliced >= 90);
}

static int compare(const void *one, const void *other) {
    uint32_t a = *(const uint32_t *)one, b = *(const uint32_t *)other;
    return (a > b) - (a < b);
}

/* After how many choices a page has a slot that suddenly gets one in so many requests. */
static uint32_t choices_until_split(uint32_t times) {
    simulation it;
    seen made = {0, 0, 0, 0};
    uint32_t choices = 0;
    open_service(&it);
    run_times(&it, SETTLED);
    it.sudden = page_of(&it, PAGES - 1);
    it.times = times;
    while (choices < 100 && !is_split[it.sudden]) {
        run(&it, &made);
        note_split(&it, &made);
        choices++;
    }
    free_service(&it);
    return choices;
}

static bool sudden(uint32_t times, uint32_t most) {
    enum { TRIES = 41 };
    uint32_t choices[TRIES];
    for (int n = 0; n < TRIES; n++)
        choices[n] = choices_until_split(times);
    qsort(choices, TRIES, sizeof *choices, compare);
    char what[80];
    snprintf(what, sizeof what, "choices until a page with one in %u requests is split", times);
    return reaches(what, 1, choices[TRIES / 2], choices[TRIES / 2] <= most);
}

static bool flat(void) {
    simulation it;
    open_service(&it);
    seen made = run_times(&it, 200);
    free_service(&it);
    return reaches("split phases", 0, (double)made.phases, made.phases == 0);
}

int main(void) {
    bool is_right = true;
    draw(0);
    is_right &= flat();
    draw(1);
    is_right &= steady(1);
    is_right &= moving(1);
    is_right &= sudden(10, 2);
    is_right &= sudden(50, 10);
    draw(1.4);
    is_right &= steady(1.4);
    is_right &= moving(1.4);
    draw(2);
    is_right &= steady(2);
    return is_right ? 0 : 1;
}
