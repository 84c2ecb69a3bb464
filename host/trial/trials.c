/* trials.c: whole cases for the planner: a slip, looks and the length of a buffer. */
#include "trials.h"

#include "sheets.h"
#include "texts.h"

struct request trial_request(const struct trial *trial)
{
    struct request request = {
        .slip = trial->slip.bytes,
        .slip_len = trial->slip.len,
        .looks = trial->looks,
        .buffer_len = trial->buffer_len,
        .jobs = trial->known.sheet.job_count,
    };

    return request;
}

/* Each of these makes the slip of a trial and tells whether a timetable is known to fit. */
typedef int slip_maker(struct random *random, struct text *slip);

static int make_bytes(struct random *random, struct text *slip)
{
    random_bytes(random, slip);
    return 0;
}

static int make_lines(struct random *random, struct text *slip)
{
    random_lines(random, slip);
    return 0;
}

static int make_small(struct random *random, struct text *slip)
{
    struct sheet sheet;

    random_small_sheet(random, &sheet);
    text_write_slip(slip, &sheet);
    return 0;
}

static int make_crowded(struct random *random, struct text *slip)
{
    struct sheet sheet;

    random_crowded_sheet(random, &sheet);
    text_write_slip(slip, &sheet);
    return 0;
}

static int make_flow(struct random *random, struct text *slip)
{
    struct sheet sheet;

    random_flow_sheet(random, &sheet);
    text_write_slip(slip, &sheet);
    return 0;
}

static int make_large(struct random *random, struct text *slip)
{
    struct sheet sheet;

    random_large_sheet(random, &sheet);
    text_write_slip(slip, &sheet);
    return 0;
}

static int make_feasible(struct random *random, struct text *slip)
{
    struct sheet sheet;
    uint32_t jobs = random_between(random, 1, random_one_in(random, 4) ? 48 : 12);

    random_feasible_sheet(random, &sheet, jobs, random_between(random, 0, 2 * jobs));
    text_write_slip(slip, &sheet);
    return 1;
}

static int make_overfull(struct random *random, struct text *slip)
{
    struct sheet sheet;

    random_overfull_sheet(random, &sheet);
    text_write_slip(slip, &sheet);
    return 0;
}

/* A good slip of some size, to be spoiled. */
static void make_some(struct random *random, struct sheet *sheet)
{
    if (random_one_in(random, 4)) {
        random_feasible_sheet(random, sheet, random_between(random, 1, 48), 20);
    } else {
        random_small_sheet(random, sheet);
    }
}

static int make_spoiled(struct random *random, struct text *slip)
{
    struct sheet sheet;

    make_some(random, &sheet);
    spoil_sheet(random, &sheet);
    text_write_slip(slip, &sheet);
    return 0;
}

static int make_truncated(struct random *random, struct text *slip)
{
    struct sheet sheet;

    make_some(random, &sheet);
    text_write_slip(slip, &sheet);
    truncate_text(random, slip);
    return 0;
}

static int make_mutated(struct random *random, struct text *slip)
{
    struct sheet sheet;
    uint32_t changes = random_between(random, 1, 3);

    make_some(random, &sheet);
    text_write_slip(slip, &sheet);
    for (uint32_t i = 0; i < changes; i++) {
        mutate_text(random, slip);
    }
    return 0;
}

static int make_long(struct random *random, struct text *slip)
{
    make_mutated(random, slip);
    lengthen_text(random, slip);
    return 0;
}

/* How many of a hundred trials have their slip from each maker. */
static const struct {
    uint32_t share;
    slip_maker *make;
} makers[] = {
    {8, make_bytes},     {10, make_lines},    {14, make_small},    {10, make_crowded},
    {10, make_flow},     {2, make_large},     {6, make_feasible},  {2, make_overfull},
    {10, make_spoiled},  {6, make_truncated}, {20, make_mutated},  {2, make_long},
};

static int make_slip(struct random *random, struct text *slip)
{
    uint32_t left = random_between(random, 0, 99);
    size_t i = 0;

    while (left >= makers[i].share) {
        left -= makers[i++].share;
    }
    slip->len = 0;
    return makers[i].make(random, slip);
}

/* Looks that settle the sheet just so, or just not, or as many as can be granted. */
static uint32_t telling_looks(struct random *random, uint64_t count)
{
    uint32_t enough = (uint32_t)(2 * count - 1);

    switch (random_between(random, 0, 2)) {
    case 0:
        return enough;
    case 1:
        return enough > 1 ? enough - 1 : enough;
    default:
        return 1000000;
    }
}

static uint32_t choose_looks(struct random *random, const struct known *known)
{
    static const uint32_t refused[] = {0, 1000001, UINT32_MAX, 1 << 20};

    if (random_one_in(random, 8)) {
        return refused[random_between(random, 0, 3)];
    }
    if (known->fault != 0) {
        return random_between(random, 1, 1000000);
    }
    if (known->count <= 300 && random_one_in(random, 2)) {
        return telling_looks(random, known->count);
    }
    return random_between(random, 1, known->sheet.job_count <= 12 ? 40 : 4);
}

static size_t choose_buffer_len(struct random *random, size_t jobs)
{
    uint32_t needed = 2 * (uint32_t)jobs;

    switch (random_between(random, 0, 9)) {
    case 0:
        return random_between(random, 0, needed);
    case 1:
        return needed > 0 ? needed - 1 : 0;
    case 2:
        return random_one_in(random, 20) ? TEXT_ROOM : RIUVELDE_BUFFER_MAX;
    case 3:
    case 4:
    case 5:
        return needed;
    default:
        return needed + random_between(random, 0, 4);
    }
}

void random_trial(struct trial *trial, uint64_t seed, uint64_t case_number)
{
    struct random random = random_for(seed, case_number);
    int feasible = make_slip(&random, &trial->slip);

    know_slip(&trial->known, trial->slip.bytes, trial->slip.len);
    trial->known.feasible = feasible;
    trial->looks = choose_looks(&random, &trial->known);
    trial->buffer_len = choose_buffer_len(&random, trial->known.sheet.job_count);
}
