/* sheets.c: random sheets of several kinds. */
#include "sheets.h"

#include <string.h>

enum { LAST_MINUTE = 40000, STATIONS = 8, LONGEST_WAIT = 2000 };

static uint32_t least(uint32_t a, uint32_t b)
{
    return a < b ? a : b;
}

static void clear(struct sheet *sheet)
{
    memset(sheet, 0, sizeof *sheet);
}

/* Adds a job with a window of some width, from a release on. */
static void add_job(struct sheet *sheet, uint32_t station, uint32_t duration, uint32_t release,
                    uint32_t width)
{
    struct job job = {station, duration, release, release + duration + width};

    sheet_add_job(sheet, job);
}

/* Adds a link unless it is there already. */
static void add_link(struct sheet *sheet, uint32_t from, uint32_t to, uint32_t wait)
{
    struct link link = {from, to, wait};

    if (!sheet_has_link(sheet, from, to)) {
        sheet_add_link(sheet, link);
    }
}

/* Adds up to so many links between any two jobs. */
static void add_any_links(struct random *random, struct sheet *sheet, size_t tries, uint32_t wait)
{
    uint32_t last = (uint32_t)sheet->job_count - 1;

    for (size_t i = 0; sheet->job_count > 1 && i < tries; i++) {
        uint32_t from = random_between(random, 0, last);
        uint32_t to = random_between(random, 0, last);
        if (from != to) {
            add_link(sheet, from, to, random_between(random, 0, wait));
        }
    }
}

void random_small_sheet(struct random *random, struct sheet *sheet)
{
    uint32_t jobs = random_between(random, 0, 6);
    uint32_t stations = random_between(random, 1, 3);
    uint32_t early = random_one_in(random, 4) ? random_between(random, 0, 39976) : 0;

    clear(sheet);
    for (uint32_t i = 0; i < jobs; i++) {
        uint32_t station = STATIONS - random_between(random, 1, stations);
        uint32_t duration = random_between(random, 1, 5);
        uint32_t release = early + random_between(random, 0, 12);
        add_job(sheet, station, duration, release, random_between(random, 0, 7));
    }
    add_any_links(random, sheet, random_between(random, 0, 3), 3);
}

/* Gives a job a window that leaves out up to a third of the room on each side. */
static void spread_window(struct random *random, struct job *job, uint32_t room)
{
    job->release = random_between(random, 0, room / 3);
    job->due = room - random_between(random, 0, room / 3);
    if (job->due < job->release + job->duration) {
        job->due = job->release + job->duration;
    }
}

void random_crowded_sheet(struct random *random, struct sheet *sheet)
{
    uint32_t jobs = random_between(random, 3, 6);
    uint32_t room = random_between(random, 0, 4);

    clear(sheet);
    for (uint32_t i = 0; i < jobs; i++) {
        add_job(sheet, random_one_in(random, 6) ? 1 : 0, random_between(random, 1, 9), 0, 0);
        room += sheet->jobs[i].duration;
    }
    for (uint32_t i = 0; i < jobs; i++) {
        spread_window(random, &sheet->jobs[i], room);
    }
    add_any_links(random, sheet, random_between(random, 0, 2), 4);
}

void random_flow_sheet(struct random *random, struct sheet *sheet)
{
    uint32_t work[2] = {0, 0};

    clear(sheet);
    for (uint32_t i = 0; i < 6; i++) {
        add_job(sheet, i / 3, random_between(random, 1, 9), 0, 0);
        work[i / 3] += sheet->jobs[i].duration;
    }
    uint32_t room = (work[0] > work[1] ? work[0] : work[1]) + random_between(random, 2, 8);
    for (uint32_t i = 0; i < 6; i++) {
        sheet->jobs[i].due = room + random_between(random, 0, 2);
    }
    for (uint32_t i = 0; i < 3; i++) {
        add_link(sheet, i, i + 3, random_between(random, 0, 3));
    }
}

/* A timetable that a sheet is made around. */
struct planted {
    uint32_t starts[JOB_ROOM];
    uint32_t ends[STATIONS]; /* where the last job of each station ends */
    uint32_t slack;          /* the most minutes that a window goes past the start on each side */
};

/* Adds a job behind the last one of a station, if there is still time for it. */
static void plant_job(struct random *random, struct sheet *sheet, struct planted *planted,
                      uint32_t station)
{
    uint32_t duration = random_between(random, 1, random_one_in(random, 8) ? 2000 : 300);
    uint32_t start = planted->ends[station] + random_between(random, 0, 40);
    uint32_t end = start + duration;

    if (end <= LAST_MINUTE) {
        uint32_t before = random_between(random, 0, least(planted->slack, start));
        uint32_t behind = random_between(random, 0, least(planted->slack, LAST_MINUTE - end));
        planted->starts[sheet->job_count] = start;
        planted->ends[station] = end;
        add_job(sheet, station, duration, start - before, before + behind);
    }
}

/* Links two jobs if the timetable lets it stand. */
static void plant_link(struct random *random, struct sheet *sheet, const struct planted *planted)
{
    uint32_t last = (uint32_t)sheet->job_count - 1;
    uint32_t from = random_between(random, 0, last);
    uint32_t to = random_between(random, 0, last);
    uint32_t end = planted->starts[from] + sheet->jobs[from].duration;

    if (from != to && end <= planted->starts[to]) {
        uint32_t longest = least(LONGEST_WAIT, planted->starts[to] - end);
        add_link(sheet, from, to, random_between(random, 0, longest));
    }
}

void random_feasible_sheet(struct random *random, struct sheet *sheet, size_t jobs, size_t links)
{
    struct planted planted = {{0}, {0}, 0};
    uint32_t stations = random_between(random, 1, STATIONS);

    clear(sheet);
    planted.slack = random_one_in(random, 4) ? LAST_MINUTE : random_between(random, 0, 300);
    for (size_t i = 0; i < jobs; i++) {
        plant_job(random, sheet, &planted, random_between(random, 0, stations - 1));
    }
    for (size_t tries = 0; sheet->link_count < links && tries < 6 * links; tries++) {
        plant_link(random, sheet, &planted);
    }
}

void random_large_sheet(struct random *random, struct sheet *sheet)
{
    uint32_t jobs = random_between(random, 12, 48);
    uint32_t links = random_between(random, 0, 96);
    uint32_t room = random_one_in(random, 2) ? 38000 : 4000;

    clear(sheet);
    for (uint32_t i = 0; i < jobs; i++) {
        uint32_t station = random_between(random, 0, STATIONS - 1);
        uint32_t duration = random_between(random, 20, 200);
        uint32_t width = random_between(random, 0, 1500);
        add_job(sheet, station, duration, random_between(random, 0, room), width);
    }
    for (uint32_t i = 0; i < links; i++) {
        uint32_t to = random_between(random, 1, jobs - 1);
        add_link(sheet, random_between(random, 0, to - 1), to, random_between(random, 0, 100));
    }
}

/* Adds so many links, in the order of the jobs. */
static void add_ordered_links(struct sheet *sheet, size_t links)
{
    for (uint32_t from = 0; from < sheet->job_count; from++) {
        for (uint32_t to = from + 1; to < sheet->job_count && sheet->link_count < links; to++) {
            add_link(sheet, from, to, 0);
        }
    }
}

void random_overfull_sheet(struct random *random, struct sheet *sheet)
{
    int many_jobs = random_one_in(random, 2);
    uint32_t jobs = many_jobs ? random_between(random, 49, 60) : random_between(random, 16, 48);

    clear(sheet);
    for (uint32_t i = 0; i < jobs; i++) {
        add_job(sheet, i % STATIONS, 1, i, random_between(random, 0, 50));
    }
    add_ordered_links(sheet, many_jobs ? 0 : random_between(random, 97, 110));
}

static void spoil_job(struct random *random, struct job *job)
{
    switch (random_between(random, 0, 5)) {
    case 0:
        job->station = random_one_in(random, 2) ? 8 : 7;
        break;
    case 1:
        job->duration = random_one_in(random, 2) ? 0 : 2001;
        break;
    case 2:
        job->release = random_one_in(random, 2) ? 40001 : 40000;
        break;
    case 3:
        job->due = random_one_in(random, 2) ? 40001 : 99999;
        break;
    default:
        job->due = job->release + job->duration - random_between(random, 0, 1);
        break;
    }
}

static void spoil_link(struct random *random, struct sheet *sheet, struct link *link)
{
    switch (random_between(random, 0, 4)) {
    case 0:
        link->from = (uint32_t)sheet->job_count;
        break;
    case 1:
        link->to = random_one_in(random, 2) ? (uint32_t)sheet->job_count : 99999;
        break;
    case 2:
        link->to = link->from;
        break;
    case 3:
        link->wait = random_one_in(random, 2) ? 2001 : 2000;
        break;
    default:
        sheet_add_link(sheet, *link);
        break;
    }
}

void spoil_sheet(struct random *random, struct sheet *sheet)
{
    uint32_t jobs = (uint32_t)sheet->job_count;
    uint32_t links = (uint32_t)sheet->link_count;

    if (links > 0 && random_one_in(random, 2)) {
        spoil_link(random, sheet, &sheet->links[random_between(random, 0, links - 1)]);
    } else if (jobs > 0) {
        spoil_job(random, &sheet->jobs[random_between(random, 0, jobs - 1)]);
    }
}
