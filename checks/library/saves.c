/* Counts and last likes of a service in a file: saved while threads like, by two at once and by cancelled ones, loaded,
 * grown, and refused where the file is wrong in each of its bytes, or can't be written.
 *
 * usage: saves FOLDER
 *
 * If something is wrong, it prints a line and exits with status 1. */
#include "harness.h"

#include <fcntl.h>
#include <signal.h>
#include <sys/resource.h>
#include <sys/stat.h>

enum { USERS = 7, PAGES = 3, SEATS = 2 };

static char path[1000], beside[1010];
static bool is_over, is_to_cut;

/* In place of the C library's. Where one is to be, the file is cut behind it. */
int fstat(int file, struct stat *told) {
    int status = fstatat(file, "", told, AT_EMPTY_PATH);
    hold(!is_to_cut || truncate(path, 40) == 0, "no file was cut");
    return status;
}

static likes_service *opened(void) {
    likes_service *service = NULL;
    likes_options options = {.pages = PAGES, .users = USERS, .seats = SEATS, .period_us = 100};
    IS(likes_service_open(&options, &service), LIKES_OK);
    return service;
}

/* How many likes each page has. */
static void counts_are(likes_service *service, const uint64_t *right, size_t pages) {
    uint64_t counts[2 * PAGES];
    IS(likes_service_counts(service, counts, pages), LIKES_COUNTED);
    for (size_t page = 0; page < pages; page++)
        IS(counts[page], right[page]);
}

static void last_is(likes_service *service, uint32_t user, uint32_t right) {
    uint32_t page;
    IS(likes_service_last(service, user, &page), LIKES_OK);
    IS(page, right);
}

/* As it was, and with more pages and users. */
static void save_and_load(void) {
    const uint64_t right[] = {0, 2, 1, 0, 0};
    likes_service *service = opened(), *same = NULL, *grown = NULL;
    likes_options none = {.seats = 3}, more = {.pages = PAGES + 2, .users = USERS + 1}, less = {.users = USERS - 1};
    IS(likes_service_like(service, 0, 1), LIKES_LIKED);
    IS(likes_service_like(service, 5, 1), LIKES_LIKED);
    IS(likes_service_like(service, 5, 2), LIKES_LIKED);
    IS(likes_service_save(service, path), LIKES_OK);
    hold(access(beside, F_OK) == -1, "a file is left");
    IS(likes_service_close(service), LIKES_OK);
    IS(likes_service_load(path, &none, &same), LIKES_OK);
    IS(likes_service_pages(same), PAGES);
    IS(likes_service_users(same), USERS);
    IS(likes_service_users(NULL) + likes_service_pages(NULL), 0);
    counts_are(same, right, PAGES);
    last_is(same, 0, 1);
    last_is(same, 5, 2);
    last_is(same, 6, LIKES_NO_PAGE);
    IS(likes_service_load(path, &more, &same), LIKES_IN_USE);
    IS(likes_service_load(path, &more, &grown), LIKES_OK);
    counts_are(grown, right, PAGES + 2);
    last_is(grown, 5, 2);
    last_is(grown, USERS, LIKES_NO_PAGE);
    IS(likes_service_like(grown, USERS, PAGES + 1), LIKES_LIKED);
    IS(likes_service_close(same), LIKES_OK);
    IS(likes_service_close(grown), LIKES_OK);
    same = NULL;
    IS(likes_service_load(path, &less, &same), LIKES_WRONG_LENGTH);
    IS(same == NULL, true);
}

static void write_file(const char *bytes, size_t length) {
    FILE *file = fopen(path, "wb");
    hold(file != NULL && fwrite(bytes, 1, length, file) == length && fclose(file) == 0, "no file was written");
}

/* A file of another length, and one with another byte, wherever that is. */
static void wrong_files(void) {
    likes_options options = {.seats = 1};
    likes_service *service = NULL;
    char bytes[1000];
    FILE *file = fopen(path, "rb");
    size_t length = fread(bytes, 1, sizeof bytes - 1, file);
    fclose(file);
    for (size_t less = 0; less < length; less++) {
        write_file(bytes, less);
        IS(likes_service_load(path, &options, &service), less < 32 ? LIKES_NOT_SAVED : LIKES_WRONG_SIZE);
    }
    write_file(bytes, length + 1);
    IS(likes_service_load(path, &options, &service), LIKES_WRONG_SIZE);
    for (size_t at = 0; at < length; at++) {
        bytes[at] ^= 1;
        write_file(bytes, length);
        uint32_t status = likes_service_load(path, &options, &service);
        bytes[at] ^= 1;
        hold(at >= 8 || status == LIKES_NOT_SAVED, "another file was loaded");
        hold(at < 8 || at >= 16 || status == LIKES_OTHER_VERSION, "another version was loaded");
        hold(at < 16 || status == LIKES_WRONG_SUM || status == LIKES_WRONG_SIZE, "a changed file was loaded");
    }
    IS(service == NULL, true);
    write_file(bytes, length);
    IS(likes_service_load(path, &options, &service), LIKES_OK);
    IS(likes_service_close(service), LIKES_OK);
}

/* Where a file can't be read or written, errno has the reason, and the old one stays. */
static void no_files(void) {
    likes_service *service = opened(), *none = NULL;
    likes_options options = {.seats = 1};
    struct rlimit was, least = {64, 64};
    uint64_t counts[1];
    struct stat before, after;
    hold(likes_service_save(service, "/no/such/folder/file") == LIKES_FILE_FAULT && errno == ENOENT, "no reason");
    hold(likes_service_load("/no/such/file", &options, &none) == LIKES_FILE_FAULT && errno == ENOENT, "no reason");
    IS(likes_service_save(service, NULL), LIKES_NULL);
    IS(likes_service_save(NULL, path), LIKES_NOT_STARTED);
    IS(likes_service_load(NULL, &options, &none), LIKES_NULL);
    IS(likes_service_load(path, NULL, &none), LIKES_NULL);
    IS(likes_service_load(path, &options, NULL), LIKES_NULL);
    IS(likes_service_load(path, &(likes_options){.counts = counts, .pages = 1}, &none), LIKES_WRONG_COUNT);
    IS(likes_service_load(path, &(likes_options){.lasts_len = 1}, &none), LIKES_WRONG_LASTS);
    hold(stat(path, &before) == 0, "there is no file");
    signal(SIGXFSZ, SIG_IGN);
    getrlimit(RLIMIT_FSIZE, &was);
    least.rlim_max = was.rlim_max;
    setrlimit(RLIMIT_FSIZE, &least);
    hold(likes_service_save(service, path) == LIKES_FILE_FAULT && errno == EFBIG, "a full disk is not told");
    setrlimit(RLIMIT_FSIZE, &was);
    hold(stat(path, &after) == 0, "there is no file");
    hold(before.st_ino == after.st_ino && before.st_size == after.st_size, "the old file was changed");
    hold(access(beside, F_OK) == -1, "a file is left");
    IS(likes_service_close(service), LIKES_OK);
}

static uint32_t mode_of(const char *name) {
    struct stat told;
    hold(lstat(name, &told) == 0, "there is no file");
    return (uint32_t)told.st_mode;
}

/* A file keeps its mode, and a new one has what the umask leaves. What is beside it is removed, be it a link to another
 * file, or a FIFO. A link is replaced itself. */
static void modes_and_links(void) {
    likes_service *service = opened();
    struct stat told;
    char other[1010];
    mode_t mask = umask(027);
    snprintf(other, sizeof other, "%s.other", path);
    unlink(path);
    IS(likes_service_save(service, path), LIKES_OK);
    IS(mode_of(path), S_IFREG | 0640);
    for (size_t i = 0; i < 2; i++) {
        const mode_t modes[] = {0600, 0666};
        hold(chmod(path, modes[i]) == 0 && rename(path, other) == 0, "no mode was set");
        hold(symlink("saved.other", beside) == 0 && symlink("saved.other", path) == 0, "no links");
        hold(truncate(other, 1) == 0, "no file was cut");
        IS(likes_service_save(service, path), LIKES_OK);
        IS(mode_of(path), S_IFREG | modes[i]);
        hold(stat(other, &told) == 0 && told.st_size == 1, "another file was written");
        hold(mkfifo(beside, 0600) == 0, "no FIFO was made");
        IS(likes_service_save(service, path), LIKES_OK);
        IS(mode_of(path), S_IFREG | modes[i]);
    }
    unlink(other);
    umask(mask);
    IS(likes_service_close(service), LIKES_OK);
}

/* A file that is cut while it is read. */
static void cut_file(void) {
    likes_service *service = opened(), *none = NULL;
    likes_options options = {.seats = 1};
    IS(likes_service_save(service, path), LIKES_OK);
    is_to_cut = true;
    IS(likes_service_load(path, &options, &none), LIKES_WRONG_SIZE);
    is_to_cut = false;
    IS(likes_service_close(service), LIKES_OK);
}

static void waits(int signal_number) {
    (void)signal_number;
    hold(false, "a call waits for a FIFO");
}

/* What is no file is not replaced, and nothing is left beside it. */
static void not_replaced(const char *name, int fault) {
    likes_service *service = opened();
    uint32_t mode = mode_of(name);
    char beside_it[1020];
    snprintf(beside_it, sizeof beside_it, "%s.new", name);
    hold(likes_service_save(service, name) == LIKES_FILE_FAULT && errno == fault, "what is no file is replaced");
    IS(mode_of(name), mode);
    hold(access(beside_it, F_OK) == -1, "a file is left");
    IS(likes_service_close(service), LIKES_OK);
}

/* A folder, a device, and a FIFO, which nobody writes, and which keeps what it has: none is a saved file. */
static void other_files(const char *folder) {
    likes_options options = {.seats = 1};
    likes_service *none = NULL;
    char fifo[1010], byte = 'a';
    snprintf(fifo, sizeof fifo, "%s/fifo", folder);
    hold(mkfifo(fifo, 0600) == 0, "no FIFO was made");
    signal(SIGALRM, waits);
    alarm(30);
    IS(likes_service_load(fifo, &options, &none), LIKES_NOT_SAVED);
    int both = open(fifo, O_RDWR);
    hold(write(both, &byte, 1) == 1, "a FIFO wasn't written");
    IS(likes_service_load(fifo, &options, &none), LIKES_NOT_SAVED);
    hold(read(both, &byte, 1) == 1, "a FIFO was read");
    alarm(0);
    close(both);
    not_replaced(fifo, EINVAL);
    not_replaced(folder, EISDIR);
    unlink(fifo);
    hold(symlink("/dev/null", fifo) == 0, "no link");
    not_replaced(fifo, EINVAL);
    unlink(fifo);
    IS(likes_service_load(folder, &options, &none), LIKES_NOT_SAVED);
    IS(likes_service_load("/dev/null", &options, &none), LIKES_NOT_SAVED);
}

static void *like_on(void *at) {
    likes_service *service = (likes_service *)at;
    for (uint32_t n = 0; !is_set(&is_over); n++) {
        IS(likes_service_like(service, 3, 0), LIKES_LIKED);
        IS(likes_service_like(service, 3, 2), LIKES_LIKED);
    }
    return NULL;
}

/* A file is of one moment, also while a thread likes: its last like goes with the counts. */
static void while_liked(void) {
    likes_service *service = opened();
    pthread_t thread;
    is_over = false;
    start_thread(&thread, like_on, service);
    for (int times = 0; times < 20; times++) {
        likes_options options = {.seats = 1};
        likes_service *loaded = NULL;
        uint64_t counts[PAGES];
        uint32_t last;
        IS(likes_service_save(service, path), LIKES_OK);
        IS(likes_service_load(path, &options, &loaded), LIKES_OK);
        IS(likes_service_counts(loaded, counts, PAGES), LIKES_COUNTED);
        IS(likes_service_last(loaded, 3, &last), LIKES_OK);
        hold(counts[0] == counts[2] ? last != 0 : counts[0] == counts[2] + 1 && last == 0, "not of one moment");
        IS(likes_service_close(loaded), LIKES_OK);
    }
    set(&is_over);
    pthread_join(thread, NULL);
    IS(likes_service_close(service), LIKES_OK);
}

static void *save_often(void *service) {
    for (int i = 0; i < 100; i++)
        IS(likes_service_save((likes_service *)service, path), LIKES_OK);
    return NULL;
}

/* Two threads save to one file. */
static void at_once(void) {
    likes_service *service = opened(), *loaded = NULL;
    likes_options none = {0};
    pthread_t threads[2];
    for (int i = 0; i < 2; i++)
        hold(pthread_create(&threads[i], NULL, save_often, service) == 0, "no thread");
    for (int i = 0; i < 2; i++)
        pthread_join(threads[i], NULL);
    IS(likes_service_load(path, &none, &loaded), LIKES_OK);
    IS(likes_service_close(loaded), LIKES_OK);
    IS(likes_service_close(service), LIKES_OK);
}

/* Holds of the thread, which was cancelled, that it may be, and that it isn't. */
static void is_cancelled_later(void) {
    int state;
    pthread_setcancelstate(PTHREAD_CANCEL_DISABLE, &state);
    IS(state, PTHREAD_CANCEL_ENABLE);
}

static void *save_cancelled(void *service) {
    pthread_cancel(pthread_self());
    IS(likes_service_save((likes_service *)service, path), LIKES_OK);
    is_cancelled_later();
    return NULL;
}

static void *load_cancelled(void *service) {
    likes_options none = {0};
    pthread_cancel(pthread_self());
    IS(likes_service_load(path, &none, (likes_service **)service), LIKES_OK);
    is_cancelled_later();
    return NULL;
}

static void is_not_cancelled(void *(*work)(void *), void *at) {
    pthread_t thread;
    void *told = NULL;
    start_thread(&thread, work, at);
    pthread_join(thread, &told);
    hold(told == NULL, "a thread was cancelled within a call");
}

/* A thread that was cancelled within a call would keep what other saves wait for. */
static void cancelled(void) {
    likes_service *service = opened(), *loaded = NULL;
    is_not_cancelled(save_cancelled, service);
    is_not_cancelled(load_cancelled, &loaded);
    IS(likes_service_close(loaded), LIKES_OK);
    IS(likes_service_close(service), LIKES_OK);
}

int main(int count, char **words) {
    if (count != 2) {
        fputs("usage: saves FOLDER\n", stderr);
        return 2;
    }
    snprintf(path, sizeof path, "%s/saved", words[1]);
    snprintf(beside, sizeof beside, "%s.new", path);
    save_and_load();
    wrong_files();
    no_files();
    modes_and_links();
    cut_file();
    other_files(words[1]);
    while_liked();
    at_once();
    cancelled();
    puts("files held what was saved, and wrong ones were refused");
    return 0;
}
