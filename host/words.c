/* words.c: an answer of the planner in words. */
#include "words.h"

#include <stddef.h>

#include "riuvelde.h"

struct meaning {
    uint32_t number;
    const char *text;
};

static const struct meaning refusals[] = {
    {RIUVELDE_REFUSED_LOOKS, "the looks granted are 0 or above 1,000,000"},
    {RIUVELDE_REFUSED_BUFFER, "the buffer has less than 2 bytes a job"},
};

static const struct meaning faults[] = {
    {RIUVELDE_FAULT_TOO_LONG, "the slip is longer than 4,096 bytes"},
    {RIUVELDE_FAULT_UNFINISHED, "the slip ends without a trailer, or within a line"},
    {RIUVELDE_FAULT_LETTER, "the line is empty, begins with no J, L or E, or stands out of order"},
    {RIUVELDE_FAULT_FIELDS, "fields are missing, surplus or ill written"},
    {RIUVELDE_FAULT_TRAILER, "the trailer's figures are untrue"},
    {RIUVELDE_FAULT_REFUSED, "the line cannot be entered"},
};

static const struct meaning insides[] = {
    {RIUVELDE_INSIDE_UNKNOWN_JOB, "a job that is not on the slip"},
    {RIUVELDE_INSIDE_SHEET_FULL, "48 jobs are entered already"},
    {RIUVELDE_INSIDE_STATION, "a station above 7"},
    {RIUVELDE_INSIDE_DURATION, "a duration of 0 or above 2,000"},
    {RIUVELDE_INSIDE_TIME, "a release or due time above 40,000"},
    {RIUVELDE_INSIDE_WINDOW, "release plus duration is above the due time"},
    {RIUVELDE_INSIDE_SELF_LINK, "a link from a job to itself"},
    {RIUVELDE_INSIDE_WAIT, "a wait above 2,000"},
    {RIUVELDE_INSIDE_DUPLICATE_LINK, "a link that is there already"},
    {RIUVELDE_INSIDE_LINKS_FULL, "96 links are entered already"},
};

#define COUNT(table) (sizeof(table) / sizeof(table)[0])

static const char *meaning_of(const struct meaning *table, size_t count, uint32_t number)
{
    for (size_t i = 0; i < count; i++) {
        if (table[i].number == number) {
            return table[i].text;
        }
    }
    return "no such number";
}

static const char *outcome_name(uint32_t outcome)
{
    switch (outcome) {
    case RIUVELDE_OPEN:
        return "open";
    case RIUVELDE_FOUND:
        return "found";
    default:
        return "impossible";
    }
}

static void print_fault(FILE *out, uint32_t answer)
{
    uint32_t number = riuvelde_number(answer);
    uint32_t line = riuvelde_line(answer);
    uint32_t inside = riuvelde_inside(answer);

    fprintf(out, "fault %u", (unsigned)number);
    if (line != 0) {
        fprintf(out, " in line %u", (unsigned)line);
    }
    fprintf(out, ": %s", meaning_of(faults, COUNT(faults), number));
    if (inside != 0) {
        fprintf(out, " (%u: %s)", (unsigned)inside, meaning_of(insides, COUNT(insides), inside));
    }
    fputc('\n', out);
}

void print_answer(FILE *out, uint32_t answer)
{
    if (riuvelde_is_fault(answer)) {
        print_fault(out, answer);
    } else if (riuvelde_is_outcome(answer)) {
        fprintf(out, "%s\n", outcome_name(answer));
    } else {
        fprintf(out, "refused %u: %s\n", (unsigned)answer,
                meaning_of(refusals, COUNT(refusals), answer));
    }
}
