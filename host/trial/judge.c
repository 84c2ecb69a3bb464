/* judge.c: what must be true of an answer, known without the planner. */
#include "judge.h"

#include <string.h>

#include "reader.h"
#include "reference.h"
#include "timetable.h"

/* Up to so many timetables all are tried, and up to so wide windows the reference searches. */
enum { TRIED_MOST = 3000, REFERENCE_WIDTH = 80, REFERENCE_LOOKS = 64 };

void know_slip(struct known *known, const uint8_t *slip, size_t len)
{
    known->fault = read_slip(slip, len, &known->sheet);
    known->count = known->fault == 0 ? timetable_count(&known->sheet, COUNT_MOST) : 0;
    known->feasible = 0;
}

/* The answer if it is fixed before the search: a fault or a refusal; else 0. */
static uint32_t fixed_answer(const struct known *known, const struct request *request)
{
    if (known->fault != 0) {
        return known->fault;
    }
    if (request->looks == 0 || request->looks > 1000000) {
        return 11;
    }
    return request->buffer_len < 2 * known->sheet.job_count ? 14 : 0;
}

static size_t finished_lines(const struct request *request)
{
    size_t lines = 0;

    for (size_t i = 0; i < request->slip_len; i++) {
        lines += request->slip[i] == '\n';
    }
    return lines;
}

/* Whether number, line and inside belong together, taken apart by riuvelde.h. */
static int well_formed(const struct request *request, uint32_t answer)
{
    uint32_t number = riuvelde_number(answer);
    uint32_t line = riuvelde_line(answer);
    uint32_t inside = riuvelde_inside(answer);

    if (!riuvelde_is_fault(answer)) {
        return riuvelde_is_outcome(answer) != riuvelde_is_refusal(answer);
    }
    if (number < RIUVELDE_FAULT_TOO_LONG || number > RIUVELDE_FAULT_REFUSED) {
        return 0;
    }
    if ((line == 0) != (number == RIUVELDE_FAULT_TOO_LONG) || line > finished_lines(request) + 1) {
        return 0;
    }
    return (inside != 0) == (number == RIUVELDE_FAULT_REFUSED) &&
           inside <= RIUVELDE_INSIDE_LINKS_FULL;
}

static void take_starts(const struct sheet *sheet, const struct reply *reply, uint32_t *starts)
{
    for (size_t job = 0; job < sheet->job_count; job++) {
        starts[job] = riuvelde_start(reply->starts, job);
    }
}

static const char *judge_outcome(const struct known *known, uint32_t looks, uint32_t answer,
                                 const uint32_t *starts)
{
    if (answer == RIUVELDE_FOUND && !timetable_fits(&known->sheet, starts)) {
        return "found, but the starts do not fit";
    }
    if (answer == RIUVELDE_IMPOSSIBLE && known->feasible) {
        return "impossible, but the sheet was made around a timetable that fits";
    }
    if (answer == RIUVELDE_IMPOSSIBLE && known->count <= TRIED_MOST &&
        some_timetable_fits(&known->sheet)) {
        return "impossible, but trying all finds a timetable that fits";
    }
    if (answer == RIUVELDE_OPEN && known->count <= COUNT_MOST && looks >= 2 * known->count - 1) {
        return "open, but the looks granted are enough to settle it";
    }
    return NULL;
}

/* The most looks that the search can make: those granted, and never above 2 * count - 1. */
static uint64_t most_looks(const struct known *known, uint32_t looks)
{
    uint64_t enough = 2 * known->count - 1;

    return looks < enough ? looks : enough;
}

/* Whether the reference can follow: few jobs, narrow windows, few looks. */
static int in_reach(const struct known *known, uint32_t looks)
{
    const struct sheet *sheet = &known->sheet;

    if (sheet->job_count > REFERENCE_JOBS || most_looks(known, looks) > REFERENCE_LOOKS) {
        return 0;
    }
    for (size_t i = 0; i < sheet->job_count; i++) {
        const struct job *job = &sheet->jobs[i];
        if (job->due - job->duration - job->release > REFERENCE_WIDTH) {
            return 0;
        }
    }
    return 1;
}

static const char *judge_by_reference(const struct known *known, uint32_t looks, uint32_t answer,
                                      const uint32_t *starts)
{
    uint32_t reference_starts[JOB_ROOM];

    if (!in_reach(known, looks)) {
        return NULL;
    }
    if (answer != reference_search(&known->sheet, looks, reference_starts)) {
        return "another outcome than that of the reference";
    }
    if (answer == RIUVELDE_FOUND &&
        memcmp(starts, reference_starts, known->sheet.job_count * sizeof *starts) != 0) {
        return "other starts than those of the reference";
    }
    return NULL;
}

const char *judge(const struct known *known, const struct request *request,
                  const struct reply *reply)
{
    uint32_t starts[JOB_ROOM];
    uint32_t fixed = fixed_answer(known, request);

    if (!well_formed(request, reply->answer)) {
        return "an ill formed answer";
    }
    if (fixed != 0) {
        return reply->answer == fixed ? NULL : "another fault or refusal than is due";
    }
    if (!riuvelde_is_outcome(reply->answer)) {
        return "a fault or refusal without its cause";
    }
    take_starts(&known->sheet, reply, starts);
    const char *wrong = judge_outcome(known, request->looks, reply->answer, starts);
    return wrong != NULL ? wrong
                         : judge_by_reference(known, request->looks, reply->answer, starts);
}
