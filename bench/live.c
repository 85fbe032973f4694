/* Measures the live core beside six plain ways to count likes, all in one process. `bench/run live` and
 * `bench/run live-counts` build and run it.
 *
 * usage: live [OPTION...]
 *        live rows SYSTEM EXPONENT LOOKS ROWS
 *
 * bench/live.sh explains the options. Every thread has its own users, with a table of their last likes, and cycles
 * through a ring of requests drawn beforehand. The systems take turns. After each measurement the pages' counts must be
 * exact. In one more measurement, five times as long, each look that waits is timed.
 *
 * In the second form, the first of four threads runs ROWS rows by itself, in `counted_rows`, so that a tool can count
 * what they cost. A live service is then in a split phase, and counts aren't compared. */
#include "live-peers.h"

#include <math.h>

enum { COUNTED_THREADS = 4, TIMED = 5 };

typedef struct {
    char name[24];
    double exponent; /* of Zipf's law, or below 0: all requests are of one page */
    uint32_t looks;  /* in a hundred */
} load;

/* What part of the likes was of the pages that a live service had split last, and of the most popular ones. */
typedef struct {
    size_t split_pages;
    double of_split, of_popular;
} parts;

enum { SPLIT_PAGES = 64 };

static options asked;
static uint64_t ring; /* how many requests a thread goes through, a power of two */
static likes_service *service;
static player players[MOST_THREADS];
static pthread_barrier_t begin;
static bool is_over;

/* Takes found looks, and notes how long they waited where that is measured. */
static void take(player *it) {
    likes_found found;
    uint64_t now = 0;
    while (likes_seat_take_found(it->seat, &found)) {
        if (!it->is_timed)
            continue;
        if (now == 0)
            now = clock_now();
        uint64_t wait = now - it->began[found.tag / ROW];
        int power = wait < 16 ? 0 : 60 - __builtin_clzll(wait);
        it->waits.counts[power * 16 + (wait >> power)]++;
        it->waits.all++;
        if (wait > it->waits.worst)
            it->waits.worst = wait;
    }
}

/* What a seat does after a row, or where a look has no room. */
static void after_row(player *it, bool is_done) {
    take(it);
    if (!is_done)
        likes_service_drive(service);
    else if (it->of->drives && ++it->rows % 4 == 0)
        likes_service_tick(service);
}

static void live(player *it, const likes_request *row, likes_answer *answers) {
    if (it->is_timed)
        it->began[row[0].tag / ROW] = clock_now();
    for (size_t done = 0; done < ROW; after_row(it, done == ROW))
        done += likes_service_run(service, it->number, row + done, ROW - done, answers + done);
}

/* One request by a call of its own. */
static uint32_t single_call(player *it, const likes_request *request, likes_answer *answer) {
    if (request->op == LIKES_LIKE)
        return likes_seat_like(it->seat, request->user, request->page);
    if (request->op == LIKES_LOOK)
        return likes_seat_look(it->seat, request->user, request->page, request->tag, answer);
    return likes_seat_glance(it->seat, request->user, request->page, answer);
}

/* Passes a moment between two tries. */
static void pause_between(unsigned tries) {
    if (tries % 8 == 0)
        likes_service_drive(service);
    if (tries % 64 == 63)
        sched_yield();
}

static void single(player *it, const likes_request *row, likes_answer *answers) {
    if (it->is_timed)
        it->began[row[0].tag / ROW] = clock_now();
    for (size_t i = 0; i < ROW; i++) {
        uint32_t status = single_call(it, &row[i], &answers[i]);
        for (unsigned tries = 0; status == LIKES_BETWEEN || status == LIKES_NO_ROOM; tries++) {
            take(it);
            pause_between(tries);
            status = single_call(it, &row[i], &answers[i]);
        }
        answers[i].status = status;
    }
    after_row(it, true);
}

/* One request by a call of the service, which takes the seat's lock. */
static void locked_call(const likes_request *request, likes_answer *answer) {
    if (request->op == LIKES_LIKE)
        likes_service_like(service, request->user, request->page);
    else
        likes_service_glance(service, request->user, request->page, answer);
}

static void tick_after(player *it) {
    if (it->of->drives && ++it->rows % 4 == 0)
        likes_service_tick(service);
}

static void locked(player *it, const likes_request *row, likes_answer *answers) {
    for (size_t i = 0; i < ROW; i++)
        locked_call(&row[i], &answers[i]);
    tick_after(it);
}

/* Likes by a writer, which ticks by itself. */
static void written(player *it, const likes_request *row, likes_answer *answers) {
    for (size_t i = 0; i < ROW; i++) {
        if (row[i].op == LIKES_LIKE)
            likes_writer_like(it->writer, row[i].user, row[i].page);
        else
            likes_service_glance(service, row[i].user, row[i].page, &answers[i]);
    }
}

static const kind kinds[] = {
    {"atomic", relaxed, 0, LIKES_LOOK, false, false, false},
    {"seqcst", sequential, 0, LIKES_LOOK, false, false, false},
    {"mutex", mutex, 0, LIKES_LOOK, false, false, false},
    {"sharded", sharded, 0, LIKES_LOOK, false, false, false},
    {"2pl", locking, 0, LIKES_LOOK, false, false, false},
    {"occ", optimistic, 0, LIKES_LOOK, false, false, false},
    {"look", live, 1000, LIKES_LOOK, true, false, false},
    {"look,thread", live, 1000, LIKES_LOOK, false, false, false},
    {"glance", live, 1000, LIKES_GLANCE, true, false, false},
    {"glance,20ms", live, 20000, LIKES_GLANCE, true, false, false},
    {"look,single", single, 1000, LIKES_LOOK, true, false, false},
    {"locked", locked, 1000, LIKES_GLANCE, true, true, false},
    {"atomic,any", relaxed_any, 0, LIKES_LOOK, false, false, true},
    {"seqcst,any", sequential_any, 0, LIKES_LOOK, false, false, true},
    {"sharded,any", sharded_any, 0, LIKES_LOOK, false, false, true},
    {"locked,any", locked, 1000, LIKES_GLANCE, true, true, true},
    {"writer,any", written, 1000, LIKES_GLANCE, true, true, true},
};
enum { KINDS = sizeof kinds / sizeof *kinds };

/* The kinds that are measured, in this order. */
static const kind *kinds_asked[MOST_WORDS];

/* The page of a rank: that page, or one that is anywhere. The factor is a prime that divides no number of pages. */
static uint32_t page_of(uint32_t rank) {
    return asked.is_scattered ? (uint32_t)((rank + 1) * UINT64_C(2654435761) % asked.pages) : rank;
}

/* Draws the requests of all threads, each with users of its own. */
static void draw(const load *of, uint32_t threads) {
    double *sums = (double *)malloc(asked.pages * sizeof *sums), sum = 0;
    if (sums == NULL)
        fail("out of memory");
    for (uint32_t page = 0; page < asked.pages; page++)
        sums[page] = sum += of->exponent < 0 ? page == 0 : pow(page + 1, -of->exponent);
    for (uint32_t i = 0; i < threads; i++) {
        uint64_t random = i + 1;
        for (uint32_t n = 0; n < ring; n++) {
            likes_request *request = &players[i].ring[n];
            request->tag = n;
            request->user = i + threads * (uint32_t)below(&random, asked.users / threads);
            request->page = page_of(drawn_rank(&random, sums, asked.pages));
            request->op = below(&random, 100) < of->looks ? LIKES_LOOK : LIKES_LIKE;
        }
    }
    free(sums);
}

static void *play(void *at) {
    player *it = (player *)at;
    likes_answer answers[ROW];
    bool is_held = it->of->period > 0 && !it->of->is_free;
    pthread_barrier_wait(&begin);
    if (is_held)
        it->seat = likes_service_lock(service, it->number);
    if (it->of->row == written && likes_writer_open(service, &it->writer) != LIKES_OK)
        fail("no writer was opened");
    uint64_t done = 0, before = clock_of(CLOCK_THREAD_CPUTIME_ID);
    while (!__atomic_load_n(&is_over, __ATOMIC_RELAXED)) {
        it->of->row(it, &it->ring[done & (ring - 1)], answers);
        done += ROW;
    }
    if (is_held)
        likes_service_unlock(service, it->number);
    if (likes_writer_close(it->writer) != LIKES_OK)
        fail("a writer was not closed");
    it->writer = NULL;
    it->worked = clock_of(CLOCK_THREAD_CPUTIME_ID) - before;
    it->done = done;
    return NULL;
}

/* Makes all looks such as a system has, and all users those of their threads, or in turn of all threads. */
static void set_requests(const kind *of, uint32_t threads) {
    for (uint32_t i = 0; i < threads; i++) {
        for (uint32_t n = 0; n < ring; n++) {
            likes_request *request = &players[i].ring[n];
            request->user += (of->is_any ? n % threads : i) - request->user % threads;
            if (request->op != LIKES_LIKE)
                request->op = of->look;
        }
    }
}

/* What a service without a number of seats would have. */
static uint32_t default_seats(void) {
    long processors = sysconf(_SC_NPROCESSORS_ONLN);
    return processors > 4 ? LIKES_MAX_SEATS : 16 * (uint32_t)processors;
}

/* Makes a system ready: counts of 0, and nobody has liked anything. The period is in microseconds. */
static void start(const kind *of, uint32_t threads, uint32_t period) {
    static const uint64_t none[MOST_PAGES];
    /* A page is hot that gets a like each 10 microseconds. */
    uint32_t seats = of->is_free ? default_seats() : threads;
    likes_options options = {.seats = seats, .users = asked.users, .room = 4096, .hot = of->period / 10};
    size_t words = PADDED * STRIDE + asked.pages;
    clear_counts(of, asked.pages);
    if (of->period > 0 &&
        open_shared(options, none, asked.pages, NULL, 0, NULL, 0, period, &service) != LIKES_OK)
        fail("no service was started");
    for (uint32_t i = 0; i < threads; i++) {
        player *it = &players[i];
        it->of = of;
        it->number = i;
        it->threads = threads;
        it->shard = shards[i];
        memset(shards[i], 0, words * sizeof *shards[i]);
        it->rows = 0;
        memset(&it->waits, 0, sizeof it->waits);
        memset(it->last, 0xff, (asked.users / threads + 1) * sizeof *it->last);
        if (has_records(of))
            memset(it->users, 0, (asked.users / threads + 1) * sizeof *it->users);
    }
    set_requests(of, threads);
}

static uint64_t likes_of(const uint64_t *made, const uint32_t *pages, size_t many) {
    uint64_t sum = 0;
    for (size_t n = 0; n < many; n++)
        sum += made[pages[n]];
    return sum;
}

/* What part of so many likes a live service slices, if it splits those pages that it has split last. */
static parts parts_of(const uint64_t *made) {
    uint32_t split[SPLIT_PAGES], popular[SPLIT_PAGES], many = asked.pages < SPLIT_PAGES ? asked.pages : SPLIT_PAGES;
    size_t split_pages = likes_service_split_pages(service, split, SPLIT_PAGES);
    uint64_t all = 0;
    for (uint32_t page = 0; page < asked.pages; page++)
        all += made[page];
    for (uint32_t rank = 0; rank < many; rank++)
        popular[rank] = page_of(rank);
    double whole = all > 0 ? (double)all : 1;
    return (parts){split_pages, likes_of(made, split, split_pages) / whole, likes_of(made, popular, many) / whole};
}

/* Compares each page's count with the likes that the threads have made, of which it tells the parts. */
static parts check(const kind *of, uint32_t threads) {
    static uint64_t made[MOST_PAGES], now[MOST_PAGES];
    memset(made, 0, asked.pages * sizeof *made);
    for (uint32_t i = 0; i < threads; i++) {
        for (uint32_t n = 0; n < ring; n++) {
            uint64_t times = players[i].done / ring + (n < players[i].done % ring);
            if (players[i].ring[n].op == LIKES_LIKE)
                made[players[i].ring[n].page] += times;
            else
                players[i].waits.asked += times;
        }
    }
    parts told = of->period > 0 ? parts_of(made) : (parts){0, 0, 0};
    if (of->period > 0 && likes_service_stop(service, now, asked.pages) != LIKES_OK)
        fail("the service was not stopped");
    if (of->period > 0)
        likes_service_close(service);
    service = NULL;
    for (uint32_t page = 0; page < asked.pages; page++) {
        if (of->period == 0)
            now[page] = last_count(of, page, threads);
        if (now[page] != made[page])
            fail("a count is wrong");
    }
    return told;
}

/* Measures a system once, in millions of requests a second, and in nanoseconds of a processor for a request. Where looks
 * are timed, it takes five times as long. */
static double measure(const kind *of, uint32_t threads, bool is_timed, parts *to, double *nanoseconds) {
    start(of, threads, of->period);
    pthread_barrier_init(&begin, NULL, threads + 1);
    is_over = false;
    for (uint32_t i = 0; i < threads; i++) {
        players[i].is_timed = is_timed;
        if (pthread_create(&players[i].thread, NULL, play, &players[i]) != 0)
            fail("no thread was started");
    }
    pthread_barrier_wait(&begin);
    uint64_t began = clock_now();
    sleep_for((is_timed ? TIMED : 1) * asked.milliseconds * UINT64_C(1000000));
    __atomic_store_n(&is_over, true, __ATOMIC_RELAXED);
    uint64_t took = clock_now() - began, done = 0, all_worked = 0;
    for (uint32_t i = 0; i < threads; i++) {
        pthread_join(players[i].thread, NULL);
        done += players[i].done;
        all_worked += players[i].worked;
    }
    *nanoseconds = (double)all_worked / (double)done;
    pthread_barrier_destroy(&begin);
    *to = check(of, threads);
    return done * 1000.0 / took;
}

/* The wait in microseconds that so many of 1,000 looks had at most. */
static double wait_of(const waits *of, uint64_t of_1000) {
    uint64_t seen = 0;
    for (uint32_t i = 0; i < 64 * 16; i++) {
        seen += of->counts[i];
        if (of->counts[i] && seen * 1000 >= of->all * of_1000)
            return ((uint64_t)(i % 16 + 1) << i / 16) / 1000.0;
    }
    return 0;
}

static waits all_waits(uint32_t threads) {
    waits sum = players[0].waits;
    for (uint32_t i = 1; i < threads; i++) {
        for (uint32_t n = 0; n < 64 * 16; n++)
            sum.counts[n] += players[i].waits.counts[n];
        sum.all += players[i].waits.all;
        sum.asked += players[i].waits.asked;
        if (players[i].waits.worst > sum.worst)
            sum.worst = players[i].waits.worst;
    }
    return sum;
}

/* What was measured of a workload: each time, what is told of it, and how long the looks of some waited. */
typedef struct {
    double times[MOST_WORDS][MOST_TIMES], nanoseconds[MOST_WORDS][MOST_TIMES];
    double millions[MOST_WORDS], ratio[MOST_WORDS], worked[MOST_WORDS];
    waits waits[MOST_WORDS];
    parts parts[MOST_WORDS];
} measured;

/* Whether looks of a system may wait. */
static bool may_wait(const kind *of, const load *at) {
    return of->period > 0 && of->look == LIKES_LOOK && at->looks > 0;
}

/* The best or the median of so many numbers, and puts them in order. */
static double told(double *numbers) {
    double median = median_of(numbers, asked.times);
    return asked.is_median ? median : numbers[asked.times - 1];
}

/* What is told of all times: the best, and ratios of these, or the medians of both. */
static void sum_up(measured *it) {
    double first[MOST_TIMES], ratios[MOST_TIMES];
    memcpy(first, it->times[0], sizeof first);
    for (uint32_t n = 0; n < asked.kinds.length; n++) {
        for (uint32_t time = 0; time < asked.times; time++)
            ratios[time] = it->times[n][time] / first[time];
        it->millions[n] = told(it->times[n]);
        it->ratio[n] = asked.is_median ? told(ratios) : it->millions[n] / it->millions[0];
        qsort(it->nanoseconds[n], asked.times, sizeof *it->nanoseconds[n], compare_numbers);
        it->worked[n] = it->nanoseconds[n][asked.is_median ? asked.times / 2 : 0];
    }
}

static void measure_all(const load *at, uint32_t threads, measured *to) {
    double nanoseconds;
    memset(to, 0, sizeof *to);
    draw(at, threads);
    for (uint32_t time = 0; time < asked.times; time++)
        for (uint32_t n = 0; n < asked.kinds.length; n++)
            to->times[n][time] =
                measure(kinds_asked[n], threads, false, &to->parts[n], &to->nanoseconds[n][time]);
    sum_up(to);
    for (uint32_t n = 0; n < asked.kinds.length; n++) {
        if (may_wait(kinds_asked[n], at)) {
            measure(kinds_asked[n], threads, true, &to->parts[n], &nanoseconds);
            to->waits[n] = all_waits(threads);
        }
    }
}

static void print_heads(uint32_t threads) {
    printf("\nmillions of requests a second, %u thread%s\n", threads, threads == 1 ? "" : "s");
    printf("%-9s %6s", "pages", "looks");
    for (uint32_t n = 0; n < asked.kinds.length; n++)
        printf(" %11s", kinds_asked[n]->name);
    puts("");
}

static void print_row(const load *at, const measured *it) {
    printf("%-9s %5u%%", at->name, at->looks);
    for (uint32_t n = 0; n < asked.kinds.length; n++)
        printf(" %11.1f", it->millions[n]);
    printf("\n%16s", "");
    for (uint32_t n = 0; n < asked.kinds.length; n++)
        printf(" %10.2fx", it->ratio[n]);
    printf("\n%16s", "");
    for (uint32_t n = 0; n < asked.kinds.length; n++)
        printf(" %9.1fns", it->worked[n]);
    puts("");
    for (uint32_t n = 0; n < asked.kinds.length; n++)
        if (kinds_asked[n]->period > 0)
            printf("%16s %-11s %zu pages split, with %.1f%% of the likes; the most popular have %.1f%%\n", "",
                   kinds_asked[n]->name, it->parts[n].split_pages, 100 * it->parts[n].of_split,
                   100 * it->parts[n].of_popular);
    for (uint32_t n = 0; n < asked.kinds.length; n++)
        if (it->waits[n].all > 0)
            printf("%16s %-11s %5.1f%% waited: median %.0f us, 99%% %.0f us, worst %.0f us\n", "",
                   kinds_asked[n]->name, 100.0 * it->waits[n].all / it->waits[n].asked, wait_of(&it->waits[n], 500),
                   wait_of(&it->waits[n], 990), it->waits[n].worst / 1000.0);
    fflush(stdout);
}

static void write_row(FILE *file, uint32_t threads, const load *at, const measured *it) {
    for (uint32_t n = 0; n < asked.kinds.length; n++)
        fprintf(file, "%u,%s,%u,\"%s\",%.2f,%.2f,%.1f,%.1f,%.1f\n", threads, at->name, at->looks,
                kinds_asked[n]->name, it->millions[n], it->ratio[n], wait_of(&it->waits[n], 500),
                wait_of(&it->waits[n], 990), it->waits[n].worst / 1000.0);
    fflush(file);
}

static void go_through(player *it, uint64_t rows) {
    likes_answer answers[ROW];
    for (uint64_t row = 0; row < rows; row++)
        it->of->row(it, &it->ring[row * ROW & (ring - 1)], answers);
}

__attribute__((noinline)) static void counted_rows(player *it, uint64_t rows) {
    go_through(it, rows);
}

/* The first thread's rows, once likes have warmed the caches and made pages hot. A live service is then in a split
 * phase that lasts. */
static void count_rows(const kind *of, const load *at, uint64_t rows) {
    load likes = *at;
    likes.looks = 0;
    draw(&likes, COUNTED_THREADS);
    start(of, COUNTED_THREADS, LIKES_MAX_PERIOD_US);
    if (of->period > 0 && !of->is_free)
        players[0].seat = likes_service_lock(service, 0);
    if (of->row == written && likes_writer_open(service, &players[0].writer) != LIKES_OK)
        fail("no writer was opened");
    do
        go_through(&players[0], ring / ROW);
    while (of->period > 0 && likes_service_phase(service) % 2 == 0);
    draw(at, COUNTED_THREADS);
    set_requests(of, COUNTED_THREADS);
    counted_rows(&players[0], rows);
}

static const kind *kind_named(const char *name) {
    for (int n = 0; n < KINDS; n++)
        if (strcmp(kinds[n].name, name) == 0)
            return &kinds[n];
    fail("no such system");
    return NULL;
}

/* Makes room for so many threads. Unless it is asked for, a ring has 65,536 requests, or as many as pages but at most
 * 2^20: then its pages are no few that stay in the caches. */
static void make_room(uint32_t threads) {
    for (ring = 1 << 16; ring < asked.pages && ring < 1 << 20;)
        ring *= 2;
    if (asked.ring > 0)
        ring = asked.ring;
    for (uint32_t i = 0; i < threads; i++) {
        players[i].ring = (likes_request *)calloc(ring, sizeof *players[i].ring);
        players[i].began = (uint64_t *)calloc(ring / ROW, sizeof *players[i].began);
        players[i].last = (uint32_t *)calloc(asked.users + 1, sizeof *players[i].last);
        players[i].users = (user_record *)calloc(asked.users + 1, sizeof *players[i].users);
        if (players[i].ring == NULL || players[i].began == NULL || players[i].last == NULL ||
            players[i].users == NULL)
            fail("out of memory");
    }
}

static load load_of(const char *exponent, const char *looks) {
    load made = {"one page", -1, (uint32_t)number_in(looks, 0, 100, "how many looks of a hundred? 0 to 100")};
    if (strcmp(exponent, "one") != 0) {
        made.exponent = number_in(exponent, 0, 10, "which exponent? one, for one page, or 0 to 10");
        snprintf(made.name, sizeof made.name, "Zipf %g", made.exponent);
    }
    return made;
}

/* All workloads of so many threads. */
static void measure_loads(uint32_t threads, FILE *file) {
    static measured it;
    print_heads(threads);
    for (uint32_t n = 0; n < asked.exponents.length * asked.looks.length; n++) {
        load at = load_of(asked.exponents.words[n / asked.looks.length], asked.looks.words[n % asked.looks.length]);
        measure_all(&at, threads, &it);
        print_row(&at, &it);
        if (file != NULL)
            write_row(file, threads, &at, &it);
    }
}

static uint32_t threads_in(const char *word) {
    return (uint32_t)number_in(word, 1, MOST_THREADS, "how many threads? 1 to 64");
}

static uint32_t most_threads(void) {
    uint32_t most = 0;
    for (uint32_t n = 0; n < asked.threads.length; n++)
        if (threads_in(asked.threads.words[n]) > most)
            most = threads_in(asked.threads.words[n]);
    return most;
}

static void measure_asked(void) {
    make_room(most_threads());
    for (uint32_t n = 0; n < asked.kinds.length; n++)
        kinds_asked[n] = kind_named(asked.kinds.words[n]);
    FILE *file = asked.file != NULL ? fopen(asked.file, "w") : NULL;
    if (asked.file != NULL && file == NULL)
        fail("the file can't be written");
    if (file != NULL)
        fputs("threads,pages,looks,system,millions,ratio,median,most99,worst\n", file);
    printf("%u pages, %u users, %u ms for each of %u measurements, %s\n", asked.pages, asked.users,
           asked.milliseconds, asked.times, asked.is_median ? "the median" : "the best");
    for (uint32_t n = 0; n < asked.threads.length; n++)
        measure_loads(threads_in(asked.threads.words[n]), file);
}

/* The names of all kinds, in one word. */
static char *all_kinds(void) {
    static char names[KINDS * 16];
    for (int n = 0; n < KINDS; n++)
        strcat(strcat(names, kinds[n].name), " ");
    return names;
}

int main(int count, char **words) {
    bool is_counted = count == 6 && strcmp(words[1], "rows") == 0;
    asked = options_in(is_counted ? 1 : count, words, all_kinds());
    if (!is_counted) {
        measure_asked();
        return 0;
    }
    make_room(COUNTED_THREADS);
    load at = {"", atof(words[3]), (uint32_t)strtoul(words[4], NULL, 10)};
    count_rows(kind_named(words[2]), &at, strtoull(words[5], NULL, 10));
    return 0;
}
