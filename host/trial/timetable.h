/* timetable.h: which timetables fit a sheet, by the plain words of docs/sheet.md. */
#ifndef TRIAL_TIMETABLE_H
#define TRIAL_TIMETABLE_H

#include "sheet.h"

/* Whether the starts lie in their windows, keep every link and share no station's minute. */
int timetable_fits(const struct sheet *sheet, const uint32_t *starts);

/* The number of timetables with every start in its entered window, or most + 1 where it is
 * above most. */
uint64_t timetable_count(const struct sheet *sheet, uint64_t most);

/* Whether some timetable fits, by trying all of them. For few. */
int some_timetable_fits(const struct sheet *sheet);

#endif
