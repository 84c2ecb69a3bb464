/* timetable.c: which timetables fit a sheet, by the plain words of docs/sheet.md. */
#include "timetable.h"

static uint32_t last_start(const struct job *job)
{
    return job->due - job->duration;
}

static int in_window(const struct job *job, uint32_t start)
{
    return start >= job->release && start <= last_start(job);
}

/* Whether one of two jobs at a station ends no later than the other starts. */
static int apart(const struct job *a, uint32_t start_a, const struct job *b, uint32_t start_b)
{
    return a->station != b->station || start_a + a->duration <= start_b ||
           start_b + b->duration <= start_a;
}

static int link_holds(const struct sheet *sheet, const struct link *link, const uint32_t *starts)
{
    uint32_t end = starts[link->from] + sheet->jobs[link->from].duration;

    return starts[link->to] >= end + link->wait;
}

/* Whether job number `job` stands well with the jobs before it. */
static int fits_before(const struct sheet *sheet, const uint32_t *starts, size_t job)
{
    if (!in_window(&sheet->jobs[job], starts[job])) {
        return 0;
    }
    for (size_t i = 0; i < job; i++) {
        if (!apart(&sheet->jobs[i], starts[i], &sheet->jobs[job], starts[job])) {
            return 0;
        }
    }
    return 1;
}

int timetable_fits(const struct sheet *sheet, const uint32_t *starts)
{
    for (size_t job = 0; job < sheet->job_count; job++) {
        if (!fits_before(sheet, starts, job)) {
            return 0;
        }
    }
    for (size_t i = 0; i < sheet->link_count; i++) {
        if (!link_holds(sheet, &sheet->links[i], starts)) {
            return 0;
        }
    }
    return 1;
}

uint64_t timetable_count(const struct sheet *sheet, uint64_t most)
{
    uint64_t count = 1;

    for (size_t i = 0; i < sheet->job_count; i++) {
        const struct job *job = &sheet->jobs[i];
        count *= last_start(job) - job->release + 1;
        if (count > most) {
            return most + 1;
        }
    }
    return count;
}

/* Goes to the next timetable as a counter does; answers 0 after the last. */
static int next_timetable(const struct sheet *sheet, uint32_t *starts)
{
    for (size_t i = 0; i < sheet->job_count; i++) {
        if (starts[i] < last_start(&sheet->jobs[i])) {
            starts[i]++;
            return 1;
        }
        starts[i] = sheet->jobs[i].release;
    }
    return 0;
}

int some_timetable_fits(const struct sheet *sheet)
{
    uint32_t starts[JOB_ROOM];

    for (size_t i = 0; i < sheet->job_count; i++) {
        starts[i] = sheet->jobs[i].release;
    }
    do {
        if (timetable_fits(sheet, starts)) {
            return 1;
        }
    } while (next_timetable(sheet, starts));
    return 0;
}
