/* places.h: makes a call with its slip and buffer laid so that a byte touched outside is seen. */
#ifndef TRIAL_PLACES_H
#define TRIAL_PLACES_H

#include <stddef.h>
#include <stdint.h>

#include "riuvelde.h"

/* Where slip and buffer lie. */
enum place {
    PLACE_GUARDED,      /* in an array, with guard bytes before and behind */
    PLACE_HEAP,         /* in heap blocks of their exact length */
    PLACE_FENCE_BEHIND, /* up to a page that traps, the slip in pages that cannot be written */
    PLACE_FENCE_BEFORE, /* right behind such a page, the slip likewise */
    PLACE_NULL,         /* a null pointer where the length is 0, else as guarded */
    PLACE_COUNT
};

struct request {
    const uint8_t *slip;
    size_t slip_len;
    uint32_t looks;
    size_t buffer_len;
    size_t jobs; /* on found, 2 bytes for each of these may be written */
};

struct reply {
    uint32_t answer;
    uint8_t starts[RIUVELDE_BUFFER_MAX]; /* on found, the bytes of the starts, else zeros */
    const char *harm;                    /* what was touched and should not be, or NULL */
};

/* The longest slip and buffer that a place takes. */
enum { PLACE_ROOM = 73728 };

/* Makes the places; answers 0 if the system refuses. */
int places_open(void);

/* Calls riuvelde_plan. The buffer is filled with bytes that depend on `fill` before the call. */
struct reply call_at(enum place place, const struct request *request, uint8_t fill);

#endif
