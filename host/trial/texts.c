/* texts.c: random texts that are no slip, or hardly one. */
#include "texts.h"

#include <string.h>

static const char slip_bytes[] = "JLE 0123456789\n";

static const char *const odd_numbers[] = {
    "0",     "1",     "2",     "5",      "7",     "8",          "9",   "47", "48", "49", "2000",
    "2001",  "40000", "40001", "99999",  "65535", "65536",      "00",  "01", "",   "-1", "+1",
    "1.0",   "0x1",   "12345", "100000", "00000", "4294967296", "1\t", "1 ", " 1",
};

static const char *odd_number(struct random *random)
{
    return odd_numbers[random_between(random, 0, sizeof odd_numbers / sizeof *odd_numbers - 1)];
}

static uint8_t any_byte(struct random *random)
{
    return (uint8_t)random_between(random, 0, 255);
}

static uint8_t slip_byte(struct random *random)
{
    return (uint8_t)slip_bytes[random_between(random, 0, sizeof slip_bytes - 2)];
}

/* A place in the text, or its end. */
static size_t any_place(struct random *random, const struct text *text)
{
    return random_between(random, 0, (uint32_t)text->len);
}

static size_t any_line(struct random *random, const struct text *text)
{
    return random_between(random, 0, (uint32_t)text_line_count(text));
}

void random_bytes(struct random *random, struct text *text)
{
    int any = random_one_in(random, 2);
    uint32_t len = random_between(random, 0, random_one_in(random, 8) ? 4200 : 80);

    text->len = 0;
    while (text->len < len) {
        text_put_byte(text, any ? any_byte(random) : slip_byte(random));
    }
}

static void put_field(struct random *random, struct text *text)
{
    if (random_one_in(random, 4)) {
        text_put_string(text, odd_number(random));
    } else {
        text_put_number(text, random_between(random, 0, 9));
    }
}

/* Puts one line; its number of fields is mostly right. */
static void put_random_line(struct random *random, struct text *text, uint8_t letter)
{
    uint32_t fields = letter == 'J' ? 4 : 3;

    if (random_one_in(random, 8)) {
        fields = random_between(random, 0, 6);
    }
    text_put_byte(text, letter);
    for (uint32_t i = 0; i < fields; i++) {
        text_put_byte(text, ' ');
        put_field(random, text);
    }
    text_put_byte(text, '\n');
}

void random_lines(struct random *random, struct text *text)
{
    static const char letters[] = "JJJJJJLLEj\n";
    uint32_t lines = random_between(random, 0, 10);

    text->len = 0;
    for (uint32_t i = 0; i < lines; i++) {
        uint32_t letter = random_between(random, 0, sizeof letters - 2);
        put_random_line(random, text, (uint8_t)letters[letter]);
    }
}

void lengthen_text(struct random *random, struct text *text)
{
    size_t len = random_between(random, 4090, 4102);
    uint8_t filler = random_one_in(random, 2) ? slip_byte(random) : any_byte(random);

    if (random_one_in(random, 3)) {
        len = text->len + 4096 * random_between(random, 1, 16);
    }
    while (text->len < len) {
        text_put_byte(text, filler);
    }
}

void truncate_text(struct random *random, struct text *text)
{
    text->len = any_place(random, text);
}

static void change_byte(struct random *random, struct text *text)
{
    size_t at = any_place(random, text);

    if (at < text->len) {
        text->bytes[at] = random_one_in(random, 2) ? slip_byte(random) : any_byte(random);
    }
}

static void insert_byte(struct random *random, struct text *text)
{
    uint8_t byte = random_one_in(random, 4) ? any_byte(random) : slip_byte(random);

    text_insert(text, any_place(random, text), &byte, 1);
}

/* Puts an odd number in the place of the field behind a space. */
static void change_number(struct random *random, struct text *text)
{
    size_t at = any_place(random, text);
    const char *number = odd_number(random);

    while (at < text->len && text->bytes[at] != ' ') {
        at++;
    }
    at += at < text->len;
    while (at < text->len && text->bytes[at] != ' ' && text->bytes[at] != '\n') {
        text_remove(text, at, 1);
    }
    text_insert(text, at, (const uint8_t *)number, strlen(number));
}

static void remove_line(struct random *random, struct text *text)
{
    size_t line = any_line(random, text);
    size_t begin = text_line_begin(text, line);

    text_remove(text, begin, text_line_end(text, line) - begin);
}

/* Copies a line to the beginning of another. */
static void copy_line(struct random *random, struct text *text)
{
    uint8_t copy[256];
    size_t line = any_line(random, text);
    size_t begin = text_line_begin(text, line);
    size_t len = text_line_end(text, line) - begin;

    if (len <= sizeof copy) {
        memcpy(copy, text->bytes + begin, len);
        text_insert(text, text_line_begin(text, any_line(random, text)), copy, len);
    }
}

void mutate_text(struct random *random, struct text *text)
{
    switch (random_between(random, 0, 6)) {
    case 0:
        insert_byte(random, text);
        break;
    case 1:
        text_remove(text, any_place(random, text), 1);
        break;
    case 2:
    case 3:
        change_number(random, text);
        break;
    case 4:
        remove_line(random, text);
        break;
    case 5:
        copy_line(random, text);
        break;
    default:
        change_byte(random, text);
        break;
    }
}
