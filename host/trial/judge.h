/* judge.h: what must be true of an answer, known without the planner. */
#ifndef TRIAL_JUDGE_H
#define TRIAL_JUDGE_H

#include "places.h"
#include "sheet.h"

/* What is known of a slip before the call. */
struct known {
    uint32_t fault;     /* the fault that must be answered, or 0 */
    struct sheet sheet; /* if there is no fault */
    uint64_t count;     /* timetables within the entered windows, at most COUNT_MOST + 1 */
    int feasible;       /* the sheet was made around a timetable that fits */
};

enum { COUNT_MOST = 500000 };

/* Reads the slip by the trial's own reader. `feasible` is left 0. */
void know_slip(struct known *known, const uint8_t *slip, size_t len);

/* What is wrong with a reply, or NULL. */
const char *judge(const struct known *known, const struct request *request,
                  const struct reply *reply);

#endif
