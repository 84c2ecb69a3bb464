/* sheets.h: random sheets of several kinds. */
#ifndef TRIAL_SHEETS_H
#define TRIAL_SHEETS_H

#include "random.h"
#include "sheet.h"

/* At most 6 jobs with narrow windows, so that all timetables can be tried; links may form a
 * circle. */
void random_small_sheet(struct random *random, struct sheet *sheet);

/* Three to 6 jobs that fill one station but for a few minutes, mostly, with wide windows. */
void random_crowded_sheet(struct random *random, struct sheet *sheet);

/* Three timbers that each go from one station to another, in little time. */
void random_flow_sheet(struct random *random, struct sheet *sheet);

/* Up to so many jobs, at least one, and links, around a timetable that fits them. */
void random_feasible_sheet(struct random *random, struct sheet *sheet, size_t jobs, size_t links);

/* Many jobs with windows anywhere, and links from lower to higher job numbers. */
void random_large_sheet(struct random *random, struct sheet *sheet);

/* Small jobs and links, but more of one or the other than a sheet may hold. */
void random_overfull_sheet(struct random *random, struct sheet *sheet);

/* Sets a field of one job or link to a number at or past its limit. */
void spoil_sheet(struct random *random, struct sheet *sheet);

#endif
