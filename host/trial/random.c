/* random.c: numbers that look random and follow from a seed (the generator SplitMix64). */
#include "random.h"

uint64_t random_next(struct random *random)
{
    uint64_t z = random->state += UINT64_C(0x9E3779B97F4A7C15);

    z = (z ^ (z >> 30)) * UINT64_C(0xBF58476D1CE4E5B9);
    z = (z ^ (z >> 27)) * UINT64_C(0x94D049BB133111EB);
    return z ^ (z >> 31);
}

struct random random_for(uint64_t seed, uint64_t case_number)
{
    struct random random = {seed};

    random.state = random_next(&random) ^ case_number;
    random_next(&random);
    return random;
}

uint32_t random_between(struct random *random, uint32_t lo, uint32_t hi)
{
    uint64_t count = (uint64_t)hi - lo + 1;

    return lo + (uint32_t)(random_next(random) % count);
}

int random_one_in(struct random *random, uint32_t times)
{
    return random_between(random, 1, times) == 1;
}
