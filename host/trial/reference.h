/* reference.h: the search as docs/rules.md and docs/search.md define it, by trying all sets. */
#ifndef TRIAL_REFERENCE_H
#define TRIAL_REFERENCE_H

#include "sheet.h"

/* The most jobs that the reference takes. */
enum { REFERENCE_JOBS = 6 };

/* Searches with the house pile for so many looks. Answers the outcome, and the starts if found. */
uint32_t reference_search(const struct sheet *sheet, uint32_t looks, uint32_t *starts);

#endif
