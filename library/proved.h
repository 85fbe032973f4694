/* The proved calls over which others stand. The library hides them. They take no NULL. */
#ifndef LIKES_PROVED_H
#define LIKES_PROVED_H

#include "likes.h"

typedef struct likes_proved_options {
    uint32_t seats, users, room, hot;
    uint64_t reserved[6];
} likes_proved_options;

/* Where the last likes of a seat's users lie, four bytes for each place. Nothing may be done there but to have the processor
 * fetch them. */
typedef struct likes_address {
    const void *at;
} likes_address;

uint32_t likes_proved_open(const likes_proved_options *options, const uint64_t *counts, size_t pages,
                           const uint32_t *marks, size_t marks_len, const uint32_t *lasts, size_t lasts_len,
                           likes_driver *driver);
uint32_t likes_proved_seat_lasts(likes_seat *seat, uint32_t from, uint32_t *pages, size_t pages_len);
size_t likes_proved_seat_run(likes_seat *seat, const likes_request *requests, size_t requests_len,
                             likes_answer *answers, size_t answers_len);
uint32_t likes_proved_driver_snapshot(likes_driver *driver, uint32_t from, uint64_t *counts, size_t counts_len);
uint32_t likes_proved_driver_last_counts(likes_driver *driver, uint32_t from, uint64_t *counts, size_t counts_len);
uint32_t likes_proved_close(likes_driver *driver, likes_seat *seats, size_t seats_len, uint64_t *counts,
                            size_t counts_len);
size_t likes_proved_driver_split_pages(likes_driver *driver, uint32_t *pages, size_t pages_len);
uint32_t likes_proved_driver_propose(likes_driver *driver, const uint32_t *pages, size_t pages_len);
uint32_t likes_proved_seat_like(likes_seat *seat, uint32_t user, uint32_t page);
uint32_t likes_proved_seat_look(likes_seat *seat, uint32_t user, uint32_t page, uint64_t tag, likes_answer *answer);
uint32_t likes_proved_seat_glance(likes_seat *seat, uint32_t user, uint32_t page, likes_answer *answer);
uint32_t likes_proved_seat_last(likes_seat *seat, uint32_t user, uint32_t *page);
bool likes_proved_seat_take_found(likes_seat *seat, likes_found *found);
uint32_t likes_proved_seat_turn(likes_seat *seat);
uint32_t likes_proved_seat_retire(likes_seat *seat);
uint32_t likes_proved_seat_come_back(likes_seat *seat);
uint64_t likes_proved_seat_phase(likes_seat *seat);
void likes_proved_seat_free(likes_seat *seat);
void likes_proved_driver_free(likes_driver *driver);
void likes_proved_phase_free(likes_phase *phase);

uint32_t likes_proved_shared_open(const likes_proved_options *options, const uint64_t *counts, size_t pages,
                                  const uint32_t *marks, size_t marks_len, const uint32_t *lasts, size_t lasts_len,
                                  likes_shared *shared);
uint32_t likes_proved_shared_close(likes_shared *shared, uint64_t *counts, size_t counts_len);
void likes_proved_shared_free(likes_shared *shared);
uint32_t likes_proved_client_open(likes_shared *shared, likes_client *client);
uint32_t likes_proved_client_address(likes_client *client, uint32_t seat, likes_address *to);
uint32_t likes_proved_client_lasts(likes_client *client, uint32_t seat, uint32_t from, uint32_t *pages,
                                   size_t pages_len);
size_t likes_proved_client_run(likes_client *client, uint32_t seat, const likes_request *requests, size_t requests_len,
                               likes_answer *answers, size_t answers_len);
uint32_t likes_proved_client_like_row(likes_client *client, uint32_t seat, const likes_pair *likes, size_t likes_len,
                                      size_t *counted);
uint32_t likes_proved_client_snapshot(likes_client *client, uint32_t from, uint64_t *counts, size_t counts_len);
uint32_t likes_proved_client_last_counts(likes_client *client, uint32_t from, uint64_t *counts, size_t counts_len);
uint32_t likes_proved_client_split_pages(likes_client *client, uint32_t *pages, size_t pages_len, size_t *written);
uint32_t likes_proved_client_propose(likes_client *client, const uint32_t *pages, size_t pages_len);

#endif
