/* sheet.h: jobs and links as the trial holds them, with room for more than a slip may have. */
#ifndef TRIAL_SHEET_H
#define TRIAL_SHEET_H

#include <stddef.h>
#include <stdint.h>

enum { JOB_ROOM = 64, LINK_ROOM = 128 };

struct job {
    uint32_t station;
    uint32_t duration;
    uint32_t release;
    uint32_t due;
};

struct link {
    uint32_t from;
    uint32_t to;
    uint32_t wait;
};

struct sheet {
    size_t job_count;
    size_t link_count;
    struct job jobs[JOB_ROOM];
    struct link links[LINK_ROOM];
};

/* Whether a link from one job to the other is on the sheet. */
int sheet_has_link(const struct sheet *sheet, uint32_t from, uint32_t to);

/* Adds a job or a link with no test but that of room. */
void sheet_add_job(struct sheet *sheet, struct job job);
void sheet_add_link(struct sheet *sheet, struct link link);

#endif
