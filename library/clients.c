/* The calls of shared services and of clients that take NULL, or memory, over the proved ones. The others of likes.h are
 * the proved ones themselves. */
#include "missing.h"
#include "proved.h"

#include <errno.h>

static const uint32_t no_page;
static const likes_pair no_like;
static const likes_request no_request;

uint32_t likes_shared_seats(const likes_shared *shared) {
    return shared != NULL ? (uint32_t)shared->seats : 0;
}

uint32_t likes_shared_close(likes_shared *shared, uint64_t *counts, size_t counts_len) {
    uint64_t count;
    int error = errno;
    if (likes_is_missing(counts, counts_len))
        return LIKES_NULL;
    uint32_t status = likes_proved_shared_close(shared, counts_len == 0 ? &count : counts, counts_len);
    if (shared->at == NULL)
        shared->seats = 0;
    errno = error;
    return status;
}

void likes_shared_free(likes_shared *shared) {
    if (shared == NULL)
        return;
    likes_proved_shared_free(shared);
    shared->seats = 0;
}

uint32_t likes_client_open(likes_shared *shared, likes_client *client) {
    int error = errno;
    uint32_t status = likes_proved_client_open(shared, client);
    errno = error;
    return status;
}

uint32_t likes_client_lasts(likes_client *client, uint32_t seat, uint32_t from, uint32_t *pages, size_t pages_len) {
    uint32_t page;
    if (likes_is_missing(pages, pages_len))
        return LIKES_NULL;
    return likes_proved_client_lasts(client, seat, from, pages_len == 0 ? &page : pages, pages_len);
}

uint32_t likes_client_like_row(likes_client *client, uint32_t seat, const likes_pair *likes, size_t likes_len,
                               size_t *counted) {
    size_t many;
    if (counted == NULL)
        counted = &many;
    if (likes_is_missing(likes, likes_len)) {
        *counted = 0;
        return LIKES_NULL;
    }
    return likes_proved_client_like_row(client, seat, likes_len == 0 ? &no_like : likes, likes_len, counted);
}

/* Runs requests where an array is NULL: none, if that has a length. */
__attribute__((noinline, cold)) static size_t run_without(likes_client *client, uint32_t seat,
                                                          const likes_request *requests, size_t requests_len,
                                                          likes_answer *answers, size_t answers_len) {
    likes_answer answer;
    if (likes_is_missing(answers, answers_len))
        return 0;
    if (likes_is_missing(requests, requests_len)) {
        if (answers_len > 0)
            answers[0] = (likes_answer){.status = LIKES_NULL};
        return 0;
    }
    return likes_proved_client_run(client, seat, requests_len == 0 ? &no_request : requests, requests_len,
                                   answers_len == 0 ? &answer : answers, answers_len);
}

size_t likes_client_run(likes_client *client, uint32_t seat, const likes_request *requests, size_t requests_len,
                        likes_answer *answers, size_t answers_len) {
    if (requests == NULL || answers == NULL)
        return run_without(client, seat, requests, requests_len, answers, answers_len);
    return likes_proved_client_run(client, seat, requests, requests_len, answers, answers_len);
}

uint32_t likes_client_snapshot(likes_client *client, uint32_t from, uint64_t *counts, size_t counts_len) {
    uint64_t count;
    if (likes_is_missing(counts, counts_len))
        return LIKES_NULL;
    return likes_proved_client_snapshot(client, from, counts_len == 0 ? &count : counts, counts_len);
}

uint32_t likes_client_last_counts(likes_client *client, uint32_t from, uint64_t *counts, size_t counts_len) {
    uint64_t count;
    if (likes_is_missing(counts, counts_len))
        return LIKES_NULL;
    return likes_proved_client_last_counts(client, from, counts_len == 0 ? &count : counts, counts_len);
}

uint32_t likes_client_split_pages(likes_client *client, uint32_t *pages, size_t pages_len, size_t *written) {
    uint32_t page;
    size_t many;
    if (written == NULL)
        written = &many;
    if (likes_is_missing(pages, pages_len)) {
        *written = 0;
        return LIKES_NULL;
    }
    return likes_proved_client_split_pages(client, pages_len == 0 ? &page : pages, pages_len, written);
}

uint32_t likes_client_propose(likes_client *client, const uint32_t *pages, size_t pages_len) {
    if (likes_is_missing(pages, pages_len))
        return LIKES_NULL;
    return likes_proved_client_propose(client, pages_len == 0 ? &no_page : pages, pages_len);
}
