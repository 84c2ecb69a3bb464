/* reader.c: a second reader of slips, written from docs/slips.md alone.
 *
 * It has the figures of that page and not the names of riuvelde.h, so that a wrong name there
 * does not go unseen. */
#include "reader.h"

#include <string.h>

enum { FIELD_ROOM = 4 };

struct reading {
    struct sheet *sheet;
    size_t first_link; /* the byte place of the first L line, if there was one */
    int ended;         /* the trailer was met */
};

/* Reads " 12 0 7" as so many numbers; answers whether it is just these, well written. */
static int read_fields(const uint8_t *text, size_t len, uint32_t *fields, size_t wanted)
{
    size_t at = 0;

    for (size_t i = 0; i < wanted; i++) {
        if (at == len || text[at] != ' ') {
            return 0;
        }
        size_t first = ++at;
        fields[i] = 0;
        while (at < len && text[at] >= '0' && text[at] <= '9' && at - first < 6) {
            fields[i] = 10 * fields[i] + (uint32_t)(text[at++] - '0');
        }
        size_t digits = at - first;
        if (digits == 0 || digits > 5 || (digits > 1 && text[first] == '0')) {
            return 0;
        }
    }
    return at == len;
}

/* Why a job cannot be entered, or 0. */
static uint32_t job_refusal(const struct sheet *sheet, const struct job *job)
{
    if (sheet->job_count >= 48) {
        return 2;
    }
    if (job->station > 7) {
        return 3;
    }
    if (job->duration == 0 || job->duration > 2000) {
        return 4;
    }
    if (job->release > 40000 || job->due > 40000) {
        return 5;
    }
    return job->release + job->duration > job->due ? 6 : 0;
}

/* Why a link cannot be entered, or 0. */
static uint32_t link_refusal(const struct sheet *sheet, const struct link *link)
{
    if (link->from >= sheet->job_count || link->to >= sheet->job_count) {
        return 1;
    }
    if (link->from == link->to) {
        return 7;
    }
    if (link->wait > 2000) {
        return 8;
    }
    if (sheet_has_link(sheet, link->from, link->to)) {
        return 9;
    }
    return sheet->link_count >= 96 ? 10 : 0;
}

static uint32_t refused(uint32_t inside)
{
    return inside == 0 ? 0 : 25 + 1000000 * inside;
}

static uint32_t read_job(struct reading *reading, const uint32_t *fields)
{
    struct job job = {fields[0], fields[1], fields[2], fields[3]};
    uint32_t inside = job_refusal(reading->sheet, &job);

    if (inside == 0) {
        sheet_add_job(reading->sheet, job);
    }
    return refused(inside);
}

static uint32_t read_link(struct reading *reading, const uint32_t *fields, size_t place)
{
    struct link link = {fields[0], fields[1], fields[2]};
    uint32_t inside = link_refusal(reading->sheet, &link);

    if (inside == 0) {
        if (reading->sheet->link_count == 0) {
            reading->first_link = place;
        }
        sheet_add_link(reading->sheet, link);
    }
    return refused(inside);
}

static uint32_t read_trailer(struct reading *reading, const uint32_t *fields, size_t place)
{
    const struct sheet *sheet = reading->sheet;
    size_t true_place = sheet->link_count == 0 ? place : reading->first_link;

    reading->ended = 1;
    int is_true = fields[0] == sheet->job_count && fields[1] == sheet->link_count &&
                  fields[2] == true_place;
    return is_true ? 0 : 24;
}

/* Reads the line that begins at a byte place; answers 0, or the fault without its line. */
static uint32_t read_line(struct reading *reading, const uint8_t *text, size_t len, size_t place)
{
    uint32_t fields[FIELD_ROOM];

    if (len == 0 || reading->ended || memchr("JLE", text[0], 3) == NULL) {
        return 22;
    }
    if (text[0] == 'J' && reading->sheet->link_count > 0) {
        return 22;
    }
    if (!read_fields(text + 1, len - 1, fields, text[0] == 'J' ? 4 : 3)) {
        return 23;
    }
    switch (text[0]) {
    case 'J':
        return read_job(reading, fields);
    case 'L':
        return read_link(reading, fields, place);
    default:
        return read_trailer(reading, fields, place);
    }
}

uint32_t read_slip(const uint8_t *slip, size_t len, struct sheet *sheet)
{
    struct reading reading = {sheet, 0, 0};
    size_t place = 0;
    uint32_t line = 1;

    memset(sheet, 0, sizeof *sheet);
    if (len > 4096) {
        return 20;
    }
    for (size_t at = 0; at < len; at++) {
        if (slip[at] == '\n') {
            uint32_t fault = read_line(&reading, slip + place, at - place, place);
            if (fault != 0) {
                return fault + 100 * line;
            }
            place = at + 1;
            line++;
        }
    }
    return reading.ended && place == len ? 0 : 21 + 100 * line;
}
