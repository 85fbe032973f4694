/* Openings for the programs of checks/library/, which name arrays and numbers apart. An array of no entries goes as
 * NULL. Where `hot` is 0, no page gets hot by itself. */
#ifndef LIVE_OPENING_H
#define LIVE_OPENING_H

#include "likes_service.h"

static inline likes_options options_with(likes_options it, const uint64_t *counts, size_t pages, const uint32_t *marks,
                                         size_t marks_len, const uint32_t *lasts, size_t lasts_len) {
    it.counts = counts;
    it.pages = pages;
    it.marks = marks_len > 0 ? marks : NULL;
    it.marks_len = marks_len;
    it.lasts = lasts_len > 0 ? lasts : NULL;
    it.lasts_len = lasts_len;
    if (it.hot == 0)
        it.hot = LIKES_NO_HOT;
    return it;
}

static inline uint32_t open_core(likes_options numbers, const uint64_t *counts, size_t pages, const uint32_t *marks,
                                 size_t marks_len, const uint32_t *lasts, size_t lasts_len, likes_driver *driver) {
    likes_options options = options_with(numbers, counts, pages, marks, marks_len, lasts, lasts_len);
    return likes_open(&options, driver);
}

static inline uint32_t open_shared(likes_options numbers, const uint64_t *counts, size_t pages, const uint32_t *marks,
                                   size_t marks_len, const uint32_t *lasts, size_t lasts_len, uint32_t period,
                                   likes_service **service) {
    likes_options options = options_with(numbers, counts, pages, marks, marks_len, lasts, lasts_len);
    options.period_us = period;
    return likes_service_open(&options, service);
}

#endif
