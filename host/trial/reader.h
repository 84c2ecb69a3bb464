/* reader.h: a second reader of slips, written from docs/slips.md alone. */
#ifndef TRIAL_READER_H
#define TRIAL_READER_H

#include "sheet.h"

/* Reads a slip. Answers 0 and the sheet, or the fault as riuvelde_plan has to answer it. */
uint32_t read_slip(const uint8_t *slip, size_t len, struct sheet *sheet);

#endif
