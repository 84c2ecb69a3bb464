/* trials.h: whole cases for the planner: a slip, looks and the length of a buffer. */
#ifndef TRIAL_TRIALS_H
#define TRIAL_TRIALS_H

#include "judge.h"
#include "random.h"
#include "text.h"

struct trial {
    struct text slip;
    uint32_t looks;
    size_t buffer_len;
    struct known known;
};

/* The request that a trial makes. */
struct request trial_request(const struct trial *trial);

/* Makes the random case of this number. */
void random_trial(struct trial *trial, uint64_t seed, uint64_t case_number);

#endif
