/* random.h: numbers that look random and follow from a seed. */
#ifndef TRIAL_RANDOM_H
#define TRIAL_RANDOM_H

#include <stdint.h>

struct random {
    uint64_t state;
};

/* The source for one case of one seed; cases do not depend on each other. */
struct random random_for(uint64_t seed, uint64_t case_number);

uint64_t random_next(struct random *random);

/* A number from lo to hi, both included. */
uint32_t random_between(struct random *random, uint32_t lo, uint32_t hi);

/* 1 in one of so many times, else 0. */
int random_one_in(struct random *random, uint32_t times);

#endif
