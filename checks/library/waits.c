/* How long threads wait at a service of likes_service.h, and the processor time that they use meanwhile.
 *
 * usage: waits WHAT PROCESSORS [MICROSECONDS]
 *
 * It runs on the first PROCESSORS of those that it may use, with phases of MICROSECONDS (1000). WHAT is
 *   early  how long a look takes with which the waiting ones at its seat fill half of the room: an eighth of a phase in
 *          the median of 100, and a quarter in the 99th
 *   rows   the same for looks in a row, until they are found
 *   seats  the same for looks through a seat that its thread holds, which makes turns of the seat and no call of the
 *          service: 2 ms in the median of 100, and 4 ms in the 99th. On one processor it is only printed
 *   ticks  the same as `early`, while another thread runs rows and ticks. On one processor it is only printed
 *   counts the longest of 1,000 looks in three seconds, while three threads ask for counts as fast as they can: 20 ms.
 *          On one processor a thread waits for the turns of all others: there it is 100 looks, and 100 ms
 *   turns  the same, while three threads make turns of the driver and of the seats as fast as they can
 *   lasts  100 looks, each of 100 ms at most, while eight threads read last likes and split pages as fast as they can
 *   batches  the mean of 20 likes, while another thread locks their seat for 20 ms again and again: 200 ms
 *   found  how long a look takes whose seat is held for 200 ms, with rows that go on: 100 ms
 *   held   the processor time of a like, a look, a row and a thread that asks for counts, each on its own thread, while
 *          another thread holds a seat for half a second: 5 ms each, and 25 ms together
 *   idle   how often the threads of an idle service wake up in two seconds, and their processor time: never, 1 ms
 *   first  how long the first like takes after the service was idle: 20 microseconds in the median of 100
 *
 * It prints a line of times, and exits with status 1 if one is too long. On a busy machine, where other programs use
 * more than a tenth of a processor or get one instead of it, it only says so. */
#include "harness.h"

#include <sys/resource.h>

enum { SEATS = 5, USERS = 100, PAGES = 4, ROW = 64, TIMES = 100, STORM = 1000 };

static likes_service *service;
static bool is_over, is_wrong;

/* What a thread does beside, and the processor time that it takes, in nanoseconds. */
typedef struct {
    uint32_t seat;
    uint64_t worked, calls;
    pthread_t thread;
} worker;

/* Starts a service with a page that is split in every split phase. */
static void start(uint32_t room, uint32_t microseconds) {
    static const uint64_t counts[PAGES];
    static const uint32_t marks[] = {0};
    likes_options options = {.seats = SEATS, .users = USERS, .room = room, .hot = 512};
    uint32_t status = open_shared(options, counts, PAGES, marks, 1, NULL, 0, microseconds, &service);
    hold(status == LIKES_OK, "no service was started");
    is_over = false;
}

static void stop(void) {
    uint64_t totals[PAGES];
    hold(likes_service_stop(service, totals, PAGES) == LIKES_OK, "the service was not stopped");
    likes_service_close(service);
    service = NULL;
}

static void begin(worker *it, uint32_t seat, void *(*work)(void *)) {
    memset(it, 0, sizeof *it);
    it->seat = seat;
    start_thread(&it->thread, work, it);
}

static void end(worker *it, int threads) {
    set(&is_over);
    for (int i = 0; i < threads; i++)
        pthread_join(it[i].thread, NULL);
}

static int compare(const void *one, const void *other) {
    uint64_t first = *(const uint64_t *)one, second = *(const uint64_t *)other;
    return first < second ? -1 : first > second;
}

/* Tells of so many times, in nanoseconds, what is asked for in microseconds at most: 0 is not asked. */
static void tell(const char *what, uint64_t *times, size_t length, double median, double most99) {
    qsort(times, length, sizeof *times, compare);
    double middle = (double)times[length / 2] / 1e3, late = (double)times[(length * 99 + 99) / 100 - 1] / 1e3;
    printf("%s: median %.1f us, 99 of 100 %.1f us, longest %.1f us; ", what, middle, late,
           (double)times[length - 1] / 1e3);
    is_wrong |= (median > 0 && middle > median) || (most99 > 0 && late > most99);
}

/* Begins each time at another moment of a phase, while the service isn't idle. */
static void go_on(uint32_t number, uint32_t microseconds) {
    uint64_t until = clock_now() + UINT64_C(1000) * (microseconds + number * 37 % microseconds);
    while (clock_now() < until) {
        likes_service_like(service, 1, 1);
        sleep_for(UINT64_C(100) * microseconds);
    }
}

static uint64_t time_look(void) {
    likes_answer answer;
    uint64_t began = clock_now();
    hold(likes_service_look(service, 0, 0, &answer) == LIKES_SEEN, "a look was not answered");
    return clock_now() - began;
}

/* The seat has room for two, so one look that waits takes half of it. In a joined phase none waits. */
static uint64_t time_wait(void) {
    while (likes_service_phase(service) % 2 == 0) {
        likes_service_like(service, 1, 1);
        sleep_for(50000);
    }
    return time_look();
}

/* The time until four looks of a row are found, where the seat has room for eight; or 0, if they didn't wait. */
static uint64_t time_row(void) {
    likes_request row[4];
    likes_answer answers[4];
    likes_found found;
    for (uint32_t i = 0; i < 4; i++)
        row[i] = (likes_request){.tag = i, .op = LIKES_LOOK};
    uint64_t began = clock_now();
    likes_service_lock(service, 0);
    hold(likes_service_run(service, 0, row, 4, answers) == 4, "a row was not done");
    likes_service_unlock(service, 0);
    uint32_t waits = answers[3].status == LIKES_WAITS ? 1 : 0;
    while (waits > 0) {
        likes_service_lock(service, 0);
        while (likes_service_take_found(service, 0, &found))
            waits = found.tag == 3 ? 0 : waits;
        likes_service_unlock(service, 0);
        if (waits > 0)
            sleep_for(5000);
    }
    return answers[3].status == LIKES_WAITS ? clock_now() - began : 0;
}

static void early(const char *what, uint64_t (*measured)(void), uint32_t microseconds, bool is_judged) {
    uint64_t times[TIMES];
    for (uint32_t n = 0; n < TIMES; n++)
        do {
            go_on(n, microseconds);
            times[n] = measured();
        } while (times[n] == 0);
    tell(what, times, TIMES, is_judged ? microseconds / 8.0 : 0, is_judged ? microseconds / 4.0 : 0);
}

/* No call of the service is made: the driver's thread finds that the looks take half of the seat's room. */
static void seats(uint32_t microseconds, bool is_judged) {
    uint64_t times[TIMES];
    likes_answer answer = {.status = LIKES_SEEN};
    likes_found found;
    likes_seat *seat = likes_service_lock(service, 0);
    for (uint32_t n = 0; n < TIMES; n++) {
        uint64_t until = clock_now() + UINT64_C(1000) * (microseconds + n * 37 % microseconds);
        while (clock_now() < until)
            likes_seat_turn(seat);
        do
            likes_seat_look(seat, 0, 0, n, &answer);
        while (answer.status != LIKES_WAITS);
        uint64_t began = clock_now();
        while (!likes_seat_take_found(seat, &found))
            likes_seat_turn(seat);
        times[n] = clock_now() - began;
    }
    likes_service_unlock(service, 0);
    tell("looks through a held seat", times, TIMES, is_judged ? 2000 : 0, is_judged ? 4000 : 0);
}

/* Runs rows of likes at a seat, and ticks once in 256 requests. */
static void *tick(void *at) {
    worker *it = (worker *)at;
    likes_request row[ROW];
    likes_answer answers[ROW];
    for (uint32_t i = 0; i < ROW; i++)
        row[i] = (likes_request){.user = it->seat, .page = i % PAGES, .op = LIKES_LIKE};
    likes_service_lock(service, it->seat);
    for (it->calls = 0; !is_set(&is_over); it->calls++) {
        hold(likes_service_run(service, it->seat, row, ROW, answers) == ROW, "a row was not done");
        if (it->calls % 4 == 3)
            likes_service_tick(service);
    }
    likes_service_unlock(service, it->seat);
    return NULL;
}

static void ticks(uint32_t microseconds, bool is_judged) {
    worker busy;
    begin(&busy, 2, tick);
    early("looks beside ticks", time_wait, microseconds, is_judged);
    end(&busy, 1);
}

/* Asks for counts as fast as it can. */
static void *ask_counts(void *at) {
    worker *it = (worker *)at;
    uint64_t counts[PAGES];
    for (; !is_set(&is_over); it->calls++)
        hold(likes_service_counts(service, counts, PAGES) == LIKES_COUNTED, "there are no counts");
    it->worked = clock_of(CLOCK_THREAD_CPUTIME_ID);
    return NULL;
}

/* Makes turns as fast as it can. */
static void *make_turns(void *at) {
    worker *it = (worker *)at;
    for (; !is_set(&is_over); it->calls++) {
        likes_service_drive(service);
        likes_service_seat_turns(service);
    }
    return NULL;
}

/* Reads as fast as it can. */
static void *read_on(void *at) {
    worker *it = (worker *)at;
    uint32_t pages[LIKES_MAX_SPLIT];
    for (; !is_set(&is_over); it->calls++) {
        likes_service_last(service, 0, pages);
        likes_service_split_pages(service, pages, LIKES_MAX_SPLIT);
    }
    return NULL;
}

/* For three seconds at most, unless a look starves: then the alarm ends it. */
static void storm(const char *what, void *(*work)(void *), uint32_t threads, bool is_shared) {
    static uint64_t times[STORM];
    worker workers[8];
    size_t looks = 0;
    uint64_t phases = likes_service_phase(service), until = clock_now() + UINT64_C(3000000000);
    for (uint32_t i = 0; i < threads; i++)
        begin(&workers[i], i % SEATS, work);
    alarm(20);
    for (; looks < STORM && clock_now() < until; looks++) {
        times[looks] = time_look();
        sleep_for(100000);
    }
    phases = likes_service_phase(service) - phases;
    end(workers, (int)threads);
    tell(what, times, looks, 0, 0);
    printf("%zu looks, %llu phases; ", looks, (unsigned long long)phases);
    is_wrong |= looks < (is_shared ? STORM / 10 : STORM) || times[looks - 1] > (is_shared ? 100000000 : 20000000);
}

static void *like_once(void *at) {
    worker *it = (worker *)at;
    for (; !is_set(&is_over); it->calls++) {
        hold(likes_service_like(service, it->seat, 0) == LIKES_LIKED, "a like was refused");
        sleep_for(1000000);
    }
    it->worked = clock_of(CLOCK_THREAD_CPUTIME_ID);
    return NULL;
}

static void *look_once(void *at) {
    worker *it = (worker *)at;
    for (; !is_set(&is_over); it->calls++) {
        likes_answer answer;
        hold(likes_service_look(service, it->seat, 0, &answer) == LIKES_SEEN, "a look was not answered");
        sleep_for(1000000);
    }
    it->worked = clock_of(CLOCK_THREAD_CPUTIME_ID);
    return NULL;
}

static void *run_once(void *at) {
    worker *it = (worker *)at;
    likes_request row[2] = {{.user = it->seat}, {.user = it->seat, .op = LIKES_GLANCE}};
    likes_answer answers[2];
    for (; !is_set(&is_over); it->calls++) {
        likes_service_lock(service, it->seat);
        hold(likes_service_run(service, it->seat, row, 2, answers) == 2, "a row was not done");
        likes_service_unlock(service, it->seat);
        sleep_for(1000000);
    }
    it->worked = clock_of(CLOCK_THREAD_CPUTIME_ID);
    return NULL;
}

/* Half a second in which a seat is held, and what each thread has worked. */
static void held(void) {
    static void *(*const works[])(void *) = {like_once, look_once, run_once, ask_counts};
    worker workers[4];
    uint64_t worked[5];
    likes_service_lock(service, 4);
    sleep_for(2000000); /* until the split phase is due */
    worked[4] = clock_of(CLOCK_PROCESS_CPUTIME_ID);
    for (uint32_t i = 0; i < 4; i++)
        begin(&workers[i], i, works[i]);
    sleep_for(500000000);
    for (uint32_t i = 0; i < 4; i++) {
        clockid_t id;
        hold(pthread_getcpuclockid(workers[i].thread, &id) == 0, "a thread has no clock");
        worked[i] = clock_of(id);
        is_wrong |= worked[i] > 5000000;
    }
    worked[4] = clock_of(CLOCK_PROCESS_CPUTIME_ID) - worked[4];
    is_wrong |= worked[4] > 25000000;
    likes_service_unlock(service, 4);
    end(workers, 4);
    printf("while a seat is held: like %.1f ms, look %.1f ms, row %.1f ms, counts %.1f ms, all threads %.1f ms; ",
           (double)worked[0] / 1e6, (double)worked[1] / 1e6, (double)worked[2] / 1e6, (double)worked[3] / 1e6,
           (double)worked[4] / 1e6);
}

/* Runs rows at seat 0 for so long. */
static void run_for(uint64_t nanoseconds) {
    likes_request row = {.page = 1};
    likes_answer answer;
    uint64_t until = clock_now() + nanoseconds;
    likes_service_lock(service, 0);
    while (clock_now() < until)
        hold(likes_service_run(service, 0, &row, 1, &answer) == 1, "a row was not done");
    likes_service_unlock(service, 0);
}

static void *run_batches(void *at) {
    for (worker *it = (worker *)at; !is_set(&is_over); it->calls++)
        run_for(20000000);
    return NULL;
}

/* A thread that has waited for a seat gets it before the one that had it. */
static void batches(void) {
    worker busy;
    uint64_t took = 0;
    begin(&busy, 0, run_batches);
    for (int n = 0; n < 20; n++) {
        uint64_t began = clock_now();
        hold(likes_service_like(service, 0, 1) == LIKES_LIKED, "a like was refused");
        took += clock_now() - began;
        sleep_for(1000000);
    }
    end(&busy, 1);
    printf("likes beside batches of 20 ms: mean %.1f ms; ", (double)took / 20e6);
    is_wrong |= took > 20 * UINT64_C(200000000);
}

static void *time_one(void *at) {
    ((worker *)at)->worked = time_wait();
    return NULL;
}

/* The look waits at its seat before that is held. The thread that holds it finds the look, and wakes who waits. */
static void found_while_held(uint32_t microseconds) {
    worker looker;
    uint64_t phase = likes_service_phase(service);
    while (likes_service_phase(service) < phase + 2) {
        likes_service_like(service, 1, 1);
        sleep_for(50000);
    }
    begin(&looker, 0, time_one);
    sleep_for(UINT64_C(100) * microseconds);
    run_for(200000000);
    end(&looker, 1);
    printf("a look at a seat that is held: %.1f ms; ", (double)looker.worked / 1e6);
    is_wrong |= looker.worked > 100000000;
}

static long switches(void) {
    struct rusage used;
    getrusage(RUSAGE_SELF, &used);
    return used.ru_nvcsw;
}

/* Two seconds after a like, and after some time. */
static void idle(void) {
    likes_service_like(service, 0, 0);
    sleep_for(300000000);
    uint64_t worked = clock_of(CLOCK_PROCESS_CPUTIME_ID);
    long before = switches();
    sleep_for(2000000000);
    long wakes = switches() - before - 1;
    worked = clock_of(CLOCK_PROCESS_CPUTIME_ID) - worked;
    printf("idle: %ld wake-ups in two seconds, %.2f ms of a processor; ", wakes, (double)worked / 1e6);
    is_wrong |= wakes > 0 || worked > 1000000;
}

static void first(uint32_t microseconds) {
    uint64_t times[TIMES];
    for (uint32_t n = 0; n < TIMES; n++) {
        sleep_for(UINT64_C(1000) * (5 * microseconds + 10000));
        uint64_t began = clock_now();
        hold(likes_service_like(service, n, n % PAGES) == LIKES_LIKED, "a like was refused");
        times[n] = clock_now() - began;
    }
    tell("first likes", times, TIMES, 20, 0);
}

/* The time that all processors have worked, and that this machine was denied them, in nanoseconds. */
static uint64_t all_worked(void) {
    unsigned long long user = 0, nice = 0, system = 0, idle_time = 0, waits = 0, irq = 0, soft = 0, stolen = 0;
    FILE *file = fopen("/proc/stat", "r");
    if (file == NULL)
        return 0;
    int read = fscanf(file, "cpu %llu %llu %llu %llu %llu %llu %llu %llu", &user, &nice, &system, &idle_time, &waits,
                      &irq, &soft, &stolen);
    fclose(file);
    uint64_t tick_time = UINT64_C(1000000000) / (uint64_t)sysconf(_SC_CLK_TCK);
    return read == 8 ? (user + nice + system + irq + soft + stolen) * tick_time : 0;
}

/* Keeps to the first so many processors. Whether there are so many. */
static bool keep_to(int processors) {
    cpu_set_t all, kept;
    CPU_ZERO(&kept);
    hold(sched_getaffinity(0, sizeof all, &all) == 0, "the processors are not known");
    int taken = 0;
    for (size_t n = 0; n < CPU_SETSIZE && taken < processors; n++)
        if (CPU_ISSET(n, &all)) {
            CPU_SET(n, &kept);
            taken++;
        }
    return CPU_COUNT(&kept) == processors && sched_setaffinity(0, sizeof kept, &kept) == 0;
}

static void measure(const char *what, int processors, uint32_t microseconds) {
    if (strcmp(what, "early") == 0)
        early("looks", time_wait, microseconds, true);
    else if (strcmp(what, "rows") == 0)
        early("looks of rows", time_row, microseconds, true);
    else if (strcmp(what, "seats") == 0)
        seats(microseconds, processors > 1);
    else if (strcmp(what, "ticks") == 0)
        ticks(microseconds, processors > 1);
    else if (strcmp(what, "counts") == 0)
        storm("looks beside counts", ask_counts, 3, processors == 1);
    else if (strcmp(what, "turns") == 0)
        storm("looks beside turns", make_turns, 3, processors == 1);
    else if (strcmp(what, "lasts") == 0)
        storm("looks beside last likes", read_on, 8, true);
    else if (strcmp(what, "batches") == 0)
        batches();
    else if (strcmp(what, "found") == 0)
        found_while_held(microseconds);
    else if (strcmp(what, "held") == 0)
        held();
    else if (strcmp(what, "idle") == 0)
        idle();
    else
        first(microseconds);
}

int main(int count, char **words) {
    if (count < 3) {
        fputs("usage: waits WHAT PROCESSORS [MICROSECONDS]\n", stderr);
        return 2;
    }
    uint32_t microseconds = count > 3 ? (uint32_t)strtoul(words[3], NULL, 10) : 1000;
    int processors = atoi(words[2]);
    if (!keep_to(processors)) {
        printf("skipped: there are fewer processors\n");
        return 0;
    }
    uint64_t began = clock_now(), others = all_worked(), own = clock_of(CLOCK_PROCESS_CPUTIME_ID);
    /* One look takes half of the room, or four of a row do. */
    bool is_one = strcmp(words[1], "early") == 0 || strcmp(words[1], "ticks") == 0 || strcmp(words[1], "seats") == 0;
    start(is_one ? 2 : strcmp(words[1], "rows") == 0 ? 8 : 64, microseconds);
    measure(words[1], processors, microseconds);
    stop();
    uint64_t took = clock_now() - began;
    own = clock_of(CLOCK_PROCESS_CPUTIME_ID) - own;
    others = all_worked() - others;
    others = others > own ? others - own : 0;
    bool is_busy = others > took / 10 + 30000000;
    printf("%.0f%% of a processor, others %.0f%%%s\n", 100.0 * (double)own / (double)took,
           100.0 * (double)others / (double)took, is_wrong && is_busy ? ": too long, on a busy machine" : "");
    return is_wrong && !is_busy;
}
