/* A service's counts and last likes in a file.
 *
 * The file has, in the order of bytes that likes.h asks for: a mark, a version, the numbers of pages and of users, each
 * page's count, each user's last like, and a sum of all before it. No thread is cancelled within a call: it
 * would keep a lock, a file and memory. */
#include "service.h"

#include <fcntl.h>
#include <stdio.h>
#include <stdlib.h>
#include <sys/stat.h>

#define MARK UINT64_C(0x6576617373656b69) /* "ikessave" */
#define VERSION UINT64_C(1)

typedef struct head {
    uint64_t mark, version, pages, users;
} head;

/* What a file holds, and its sum. */
typedef struct saved {
    head head;
    uint64_t *counts;
    uint32_t *lasts;
    uint64_t sum;
} saved;

/* Adds bytes to a sum. */
static uint64_t sum_of(uint64_t sum, const void *bytes, size_t length) {
    const unsigned char *at = (const unsigned char *)bytes;
    for (size_t i = 0; i < length; i++)
        sum = (sum ^ at[i]) * UINT64_C(0x100000001b3);
    return sum;
}

static uint64_t sum_of_all(const saved *it) {
    uint64_t sum = sum_of(UINT64_C(0xcbf29ce484222325), &it->head, sizeof it->head);
    sum = sum_of(sum, it->counts, it->head.pages * sizeof *it->counts);
    return sum_of(sum, it->lasts, it->head.users * sizeof *it->lasts);
}

/* Takes memory for the numbers, of which some may be 0. */
static bool take(saved *it, uint64_t pages, uint64_t users) {
    it->counts = (uint64_t *)calloc(pages + 1, sizeof *it->counts);
    it->lasts = (uint32_t *)malloc((users + 1) * sizeof *it->lasts);
    return it->counts != NULL && it->lasts != NULL;
}

static void give_back(const saved *it) {
    free(it->counts);
    free(it->lasts);
}

/* Writes all of it, or reads it: whether that went well. */
static bool write_part(FILE *file, const void *at, size_t length) {
    return length == 0 || fwrite(at, length, 1, file) == 1;
}

static bool write_all(FILE *file, const saved *it) {
    return write_part(file, &it->head, sizeof it->head) &&
           write_part(file, it->counts, it->head.pages * sizeof *it->counts) &&
           write_part(file, it->lasts, it->head.users * sizeof *it->lasts) &&
           write_part(file, &it->sum, sizeof it->sum) && fflush(file) == 0 && fsync(fileno(file)) == 0;
}

/* Has the folder of a file keep what was renamed in it. */
static bool keep_name(const char *path) {
    char folder[4096];
    const char *end = strrchr(path, '/');
    snprintf(folder, sizeof folder, "%.*s", end == NULL ? 1 : (int)(end - path + 1), end == NULL ? "." : path);
    int at = open(folder, O_RDONLY | O_DIRECTORY | O_CLOEXEC);
    bool is_kept = at >= 0 && fsync(at) == 0;
    if (at >= 0)
        close(at);
    return is_kept;
}

/* Only one thread at a time writes a file: two of them may save to the same one. */
static pthread_mutex_t replacing = PTHREAD_MUTEX_INITIALIZER;

/* Writes a file beside the old one, and then gives it the old one's name: so after a crash there is one of the two.
 * What was beside it, from a crash or from others, is removed and not opened: it may be a link to any file. A device isn't
 * replaced. */
static bool replace(const char *path, const saved *it) {
    char beside[4096];
    struct stat old;
    bool is_new = stat(path, &old) != 0;
    bool is_long = (size_t)snprintf(beside, sizeof beside, "%s.new", path) >= sizeof beside;
    if (is_long || (!is_new && !S_ISREG(old.st_mode))) {
        errno = is_long ? ENAMETOOLONG : S_ISDIR(old.st_mode) ? EISDIR : EINVAL;
        return false;
    }
    mode_t mode = is_new ? 0666 : old.st_mode & 0777;
    unlink(beside);
    int at = open(beside, O_WRONLY | O_CREAT | O_EXCL | O_CLOEXEC, mode);
    if (at < 0)
        return false;
    FILE *file = fdopen(at, "wb");
    bool is_written = file != NULL && (is_new || fchmod(at, mode) == 0) && write_all(file, it);
    bool is_closed = (file != NULL ? fclose(file) : close(at)) == 0;
    if (is_written && is_closed && rename(beside, path) == 0)
        return keep_name(path);
    int error = errno;
    unlink(beside);
    errno = error;
    return false;
}

uint32_t likes_service_save(likes_service *service, const char *path) {
    saved it = {.head = {MARK, VERSION, 0, 0}};
    uint32_t status = path == NULL ? (uint32_t)LIKES_NULL : likes_service_fault(service);
    int error = errno, cancel;
    if (status != LIKES_OK)
        return status;
    pthread_setcancelstate(PTHREAD_CANCEL_DISABLE, &cancel);
    it.head.pages = service->pages;
    it.head.users = service->users;
    status = take(&it, it.head.pages, it.head.users) ? (uint32_t)LIKES_OK : (uint32_t)LIKES_NO_MEMORY;
    errno = error;
    /* The system gives memory as it is touched: here, since all calls wait while last likes are read. */
    if (status == LIKES_OK)
        memset(it.lasts, 0, it.head.users * sizeof *it.lasts);
    if (status == LIKES_OK)
        status = likes_service_snapshot(service, it.counts, it.head.pages, it.lasts, it.head.users);
    if (status == LIKES_COUNTED) {
        it.sum = sum_of_all(&it);
        pthread_mutex_lock(&replacing);
        status = replace(path, &it) ? (uint32_t)LIKES_OK : (uint32_t)LIKES_FILE_FAULT;
        pthread_mutex_unlock(&replacing);
    }
    error = status == LIKES_FILE_FAULT ? errno : error;
    give_back(&it);
    pthread_setcancelstate(cancel, NULL);
    errno = error;
    return status;
}

/* Whether a file's length is what its head says. */
static bool is_whole(const struct stat *told, const head *it) {
    uint64_t length = sizeof *it + it->pages * sizeof(uint64_t) + it->users * sizeof(uint32_t) + sizeof(uint64_t);
    bool is_possible = it->pages > 0 && it->pages <= LIKES_MAX_PAGES && it->users > 0 && it->users <= UINT32_MAX;
    return is_possible && (uint64_t)told->st_size == length;
}

/* Reads the numbers behind the head, with memory for as many as are asked for, or why not. */
static uint32_t read_numbers(FILE *file, saved *it, uint64_t pages, uint64_t users) {
    if (!take(it, pages, users))
        return LIKES_NO_MEMORY;
    if (fread(it->counts, sizeof *it->counts, it->head.pages, file) != it->head.pages ||
        fread(it->lasts, sizeof *it->lasts, it->head.users, file) != it->head.users ||
        fread(&it->sum, sizeof it->sum, 1, file) != 1)
        return ferror(file) ? LIKES_FILE_FAULT : LIKES_WRONG_SIZE;
    for (uint64_t user = it->head.users; user < users; user++)
        it->lasts[user] = LIKES_NO_PAGE;
    return sum_of_all(it) == it->sum ? LIKES_OK : LIKES_WRONG_SUM;
}

/* Reads a file for at least so many pages and users: LIKES_OK, or what is wrong. */
static uint32_t read_all(FILE *file, saved *it, likes_options *options) {
    struct stat told;
    if (fstat(fileno(file), &told) != 0 || !S_ISREG(told.st_mode))
        return LIKES_NOT_SAVED;
    if (fread(&it->head, sizeof it->head, 1, file) != 1)
        return ferror(file) ? LIKES_FILE_FAULT : LIKES_NOT_SAVED;
    if (it->head.mark != MARK || it->head.version != VERSION)
        return it->head.mark != MARK ? LIKES_NOT_SAVED : LIKES_OTHER_VERSION;
    if (!is_whole(&told, &it->head))
        return LIKES_WRONG_SIZE;
    options->pages = options->pages == 0 ? it->head.pages : options->pages;
    options->users = options->users == 0 ? (uint32_t)it->head.users : options->users;
    if (options->pages < it->head.pages || options->users < it->head.users)
        return LIKES_WRONG_LENGTH;
    if (options->pages > LIKES_MAX_PAGES)
        return LIKES_WRONG_PAGES;
    uint32_t status = read_numbers(file, it, options->pages, options->users);
    options->counts = it->counts;
    options->lasts = it->lasts;
    options->lasts_len = options->users;
    return status;
}

uint32_t likes_service_load(const char *path, const likes_options *options, likes_service **service) {
    saved it = {.sum = 0};
    int error = errno, cancel;
    if (path == NULL || options == NULL || service == NULL)
        return LIKES_NULL;
    if (options->counts != NULL || options->lasts != NULL || options->lasts_len > 0)
        return options->counts != NULL ? LIKES_WRONG_COUNT : LIKES_WRONG_LASTS;
    likes_options with = *options;
    pthread_setcancelstate(PTHREAD_CANCEL_DISABLE, &cancel);
    int at = open(path, O_RDONLY | O_NONBLOCK | O_CLOEXEC); /* a FIFO isn't waited for */
    FILE *file = at < 0 ? NULL : fdopen(at, "rb");
    uint32_t status = file == NULL ? (uint32_t)LIKES_FILE_FAULT : read_all(file, &it, &with);
    error = status == LIKES_FILE_FAULT ? errno : error;
    if (file != NULL)
        fclose(file);
    else if (at >= 0)
        close(at);
    if (status == LIKES_OK)
        status = likes_service_open(&with, service);
    give_back(&it);
    pthread_setcancelstate(cancel, NULL);
    errno = error;
    return status;
}
