/* text.c: slips as bytes that grow. */
#include "text.h"

#include <string.h>

void text_put_byte(struct text *text, uint8_t byte)
{
    if (text->len < TEXT_ROOM) {
        text->bytes[text->len++] = byte;
    }
}

void text_put_string(struct text *text, const char *string)
{
    while (*string != '\0') {
        text_put_byte(text, (uint8_t)*string++);
    }
}

void text_put_number(struct text *text, size_t number)
{
    if (number >= 10) {
        text_put_number(text, number / 10);
    }
    text_put_byte(text, (uint8_t)('0' + number % 10));
}

void text_insert(struct text *text, size_t at, const uint8_t *bytes, size_t len)
{
    if (text->len + len <= TEXT_ROOM) {
        memmove(text->bytes + at + len, text->bytes + at, text->len - at);
        memcpy(text->bytes + at, bytes, len);
        text->len += len;
    }
}

void text_remove(struct text *text, size_t at, size_t len)
{
    if (at + len <= text->len) {
        memmove(text->bytes + at, text->bytes + at + len, text->len - at - len);
        text->len -= len;
    }
}

size_t text_line_count(const struct text *text)
{
    size_t count = 0;

    for (size_t i = 0; i < text->len; i++) {
        count += text->bytes[i] == '\n';
    }
    return count;
}

size_t text_line_begin(const struct text *text, size_t line)
{
    size_t at = 0;

    while (at < text->len && line > 0) {
        line -= text->bytes[at++] == '\n';
    }
    return at;
}

size_t text_line_end(const struct text *text, size_t line)
{
    return text_line_begin(text, line + 1);
}

/* Puts a letter, so many numbers with a space before each, and byte 10. */
static void put_line(struct text *text, uint8_t letter, const size_t *fields, size_t count)
{
    text_put_byte(text, letter);
    for (size_t i = 0; i < count; i++) {
        text_put_byte(text, ' ');
        text_put_number(text, fields[i]);
    }
    text_put_byte(text, '\n');
}

void text_write_slip(struct text *text, const struct sheet *sheet)
{
    text->len = 0;
    for (size_t i = 0; i < sheet->job_count; i++) {
        const struct job *job = &sheet->jobs[i];
        size_t fields[] = {job->station, job->duration, job->release, job->due};
        put_line(text, 'J', fields, 4);
    }
    size_t place = text->len;
    for (size_t i = 0; i < sheet->link_count; i++) {
        const struct link *link = &sheet->links[i];
        size_t fields[] = {link->from, link->to, link->wait};
        put_line(text, 'L', fields, 3);
    }
    size_t fields[] = {sheet->job_count, sheet->link_count, place};
    put_line(text, 'E', fields, 3);
}
