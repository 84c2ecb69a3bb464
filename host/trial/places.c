/* places.c: makes a call with its slip and buffer laid so that a byte touched outside is seen. */
#define _DEFAULT_SOURCE
#include "places.h"

#include <stdlib.h>
#include <string.h>
#include <sys/mman.h>

enum { GUARD = 64, PAGE = 4096 };

/* Bytes to lend to a call, with so many guard bytes before and behind. */
struct area {
    uint8_t *bytes;
    size_t len;
    size_t before;
    size_t behind;
};

/* The memory behind the places of one of the two slices. */
struct ground {
    uint8_t guarded[GUARD + PLACE_ROOM + GUARD];
    uint8_t *fenced; /* PLACE_ROOM bytes between two pages that trap */
};

static struct ground slip_ground;
static struct ground buffer_ground;

static int fence(struct ground *ground)
{
    size_t len = PAGE + PLACE_ROOM + PAGE;
    uint8_t *pages = mmap(NULL, len, PROT_NONE, MAP_PRIVATE | MAP_ANONYMOUS, -1, 0);

    if (pages == MAP_FAILED) {
        return 0;
    }
    ground->fenced = pages + PAGE;
    return mprotect(ground->fenced, PLACE_ROOM, PROT_READ | PROT_WRITE) == 0;
}

int places_open(void)
{
    return fence(&slip_ground) && fence(&buffer_ground);
}

static struct area area_at(enum place place, struct ground *ground, size_t len)
{
    struct area area = {ground->guarded + GUARD, len, GUARD, GUARD};
    size_t spare = PLACE_ROOM - len < GUARD ? PLACE_ROOM - len : GUARD;

    if (place == PLACE_HEAP) {
        area = (struct area){malloc(len), len, 0, 0};
    } else if (place == PLACE_FENCE_BEHIND) {
        area = (struct area){ground->fenced + PLACE_ROOM - len, len, spare, 0};
    } else if (place == PLACE_FENCE_BEFORE) {
        area = (struct area){ground->fenced, len, 0, spare};
    } else if (place == PLACE_NULL && len == 0) {
        area = (struct area){NULL, 0, 0, 0};
    }
    if (area.bytes == NULL && len > 0) {
        abort();
    }
    return area;
}

static void leave_area(enum place place, struct area *area)
{
    if (place == PLACE_HEAP) {
        free(area->bytes);
    }
}

/* The byte that is put at a place of the buffer, counted from its first guard byte. */
static uint8_t fill_byte(uint8_t fill, size_t at)
{
    return (uint8_t)(fill + 29 * at);
}

static void fill_area(struct area *area, uint8_t fill)
{
    for (size_t i = 0; i < area->before + area->len + area->behind; i++) {
        *(area->bytes - area->before + i) = fill_byte(fill, i);
    }
}

/* Whether the bytes of an area are as filled, from a place on, counted as above. */
static int is_filled(const struct area *area, uint8_t fill, size_t from, size_t to)
{
    for (size_t i = from; i < to; i++) {
        if (*(area->bytes - area->before + i) != fill_byte(fill, i)) {
            return 0;
        }
    }
    return 1;
}

/* What of the buffer and its guards was touched and should not be, or NULL. */
static const char *harm_to(const struct area *buffer, uint8_t fill, size_t written)
{
    size_t end = buffer->before + buffer->len;

    if (!is_filled(buffer, fill, 0, buffer->before)) {
        return "bytes before the buffer were written";
    }
    if (!is_filled(buffer, fill, end, end + buffer->behind)) {
        return "bytes behind the buffer were written";
    }
    if (!is_filled(buffer, fill, buffer->before + written, end)) {
        return "bytes of the buffer were written that hold no start";
    }
    return NULL;
}

/* Lets the slip's fenced pages be written, or not. */
static void let_write(enum place place, int write)
{
    if (place == PLACE_FENCE_BEHIND || place == PLACE_FENCE_BEFORE) {
        int rights = write ? PROT_READ | PROT_WRITE : PROT_READ;
        if (mprotect(slip_ground.fenced, PLACE_ROOM, rights) != 0) {
            abort();
        }
    }
}

/* The number of bytes that a call with this answer may write, held to the buffer's length. */
static size_t may_write(const struct request *request, uint32_t answer)
{
    size_t starts = riuvelde_buffer_len(request->jobs);

    if (answer != RIUVELDE_FOUND) {
        return 0;
    }
    return starts < request->buffer_len ? starts : request->buffer_len;
}

static int same_bytes(const uint8_t *a, const uint8_t *b, size_t len)
{
    return len == 0 || memcmp(a, b, len) == 0;
}

struct reply call_at(enum place place, const struct request *request, uint8_t fill)
{
    struct area slip = area_at(place, &slip_ground, request->slip_len);
    struct area buffer = area_at(place, &buffer_ground, request->buffer_len);
    struct reply reply;

    memset(&reply, 0, sizeof reply);
    if (slip.len > 0) {
        memcpy(slip.bytes, request->slip, slip.len);
    }
    fill_area(&buffer, fill);
    let_write(place, 0);
    reply.answer = riuvelde_plan(slip.bytes, slip.len, request->looks, buffer.bytes, buffer.len);
    let_write(place, 1);
    size_t written = may_write(request, reply.answer);
    if (written > 0) {
        memcpy(reply.starts, buffer.bytes, written);
    }
    reply.harm = harm_to(&buffer, fill, written);
    if (!same_bytes(slip.bytes, request->slip, slip.len)) {
        reply.harm = "the slip was written";
    }
    leave_area(place, &slip);
    leave_area(place, &buffer);
    return reply;
}
