/* words.h: an answer of the planner in words. */
#ifndef WORDS_H
#define WORDS_H

#include <stdint.h>
#include <stdio.h>

/* Prints any answer as one line: the outcome by its name, a refusal or a fault explained. */
void print_answer(FILE *out, uint32_t answer);

#endif
