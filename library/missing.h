/* Arrays that are NULL where they may not be. */
#ifndef LIKES_MISSING_H
#define LIKES_MISSING_H

#include <stdbool.h>
#include <stddef.h>

/* An array of no entries may be NULL, and no other. */
static inline bool likes_is_missing(const void *array, size_t length) {
    return array == NULL && length > 0;
}

#endif
