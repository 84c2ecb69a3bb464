/* texts.h: random texts that are no slip, or hardly one. */
#ifndef TRIAL_TEXTS_H
#define TRIAL_TEXTS_H

#include "random.h"
#include "text.h"

/* Bytes of any value, or of those that slips are made of. */
void random_bytes(struct random *random, struct text *text);

/* Lines with the letters of a slip, and fields that are mostly numbers. */
void random_lines(struct random *random, struct text *text);

/* Makes a text longer, up to a length about the limit of slips or far past it. */
void lengthen_text(struct random *random, struct text *text);

/* Cuts a text off at any place. */
void truncate_text(struct random *random, struct text *text);

/* Changes a text in one small way: a byte, a number, a line. */
void mutate_text(struct random *random, struct text *text);

#endif
