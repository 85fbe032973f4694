#include "defaults.h"

#include <unistd.h>

#include "likes.h"

uint32_t likes_default_seats(void) {
    long processors = sysconf(_SC_NPROCESSORS_ONLN);
    if (processors < 1)
        processors = 1;
    return processors < 4 ? 16 * (uint32_t)processors : LIKES_MAX_SEATS;
}
