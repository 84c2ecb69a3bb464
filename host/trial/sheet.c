/* sheet.c: jobs and links as the trial holds them. */
#include "sheet.h"

int sheet_has_link(const struct sheet *sheet, uint32_t from, uint32_t to)
{
    for (size_t i = 0; i < sheet->link_count; i++) {
        if (sheet->links[i].from == from && sheet->links[i].to == to) {
            return 1;
        }
    }
    return 0;
}

void sheet_add_job(struct sheet *sheet, struct job job)
{
    if (sheet->job_count < JOB_ROOM) {
        sheet->jobs[sheet->job_count++] = job;
    }
}

void sheet_add_link(struct sheet *sheet, struct link link)
{
    if (sheet->link_count < LINK_ROOM) {
        sheet->links[sheet->link_count++] = link;
    }
}
