/* header.c: uses riuvelde.h alone, twice included, to see that it stands by itself in C and C++. */
#include "riuvelde.h"
#include "riuvelde.h"

uint32_t start_of_first(const uint8_t *slip, size_t slip_len);

uint32_t start_of_first(const uint8_t *slip, size_t slip_len)
{
    uint8_t starts[RIUVELDE_BUFFER_MAX];
    uint32_t answer = riuvelde_plan(slip, slip_len, 1, starts, riuvelde_buffer_len(1));

    if (riuvelde_is_fault(answer) || riuvelde_is_refusal(answer)) {
        return riuvelde_number(answer) + riuvelde_line(answer) + riuvelde_inside(answer);
    }
    return riuvelde_is_outcome(answer) && answer == RIUVELDE_FOUND ? riuvelde_start(starts, 0) : 0;
}
