/* Defaults that depend on the machine. */
#ifndef LIKES_DEFAULTS_H
#define LIKES_DEFAULTS_H

#include <stdint.h>

/* How many looks a seat keeps in a service that isn't told, and how many likes make a page hot. */
#define LIKES_DEFAULT_ROOM 64u
#define LIKES_DEFAULT_HOT 512u

/* How many seats a service has that isn't told: 16 for each processor, at most 64. */
uint32_t likes_default_seats(void);

#endif
