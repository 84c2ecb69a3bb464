/* text.h: slips as bytes that grow, with room for more than a slip may have. */
#ifndef TRIAL_TEXT_H
#define TRIAL_TEXT_H

#include "sheet.h"

enum { TEXT_ROOM = 70000 };

struct text {
    size_t len;
    uint8_t bytes[TEXT_ROOM];
};

/* Each puts bytes at the end; what does not fit is left out. */
void text_put_byte(struct text *text, uint8_t byte);
void text_put_string(struct text *text, const char *string);
void text_put_number(struct text *text, size_t number);

/* Puts, takes out or copies bytes in the midst. Places are at most the text's length. */
void text_insert(struct text *text, size_t at, const uint8_t *bytes, size_t len);
void text_remove(struct text *text, size_t at, size_t len);

/* The number of byte 10, and the places where a line begins and where it has ended. */
size_t text_line_count(const struct text *text);
size_t text_line_begin(const struct text *text, size_t line);
size_t text_line_end(const struct text *text, size_t line);

/* Makes the text the slip of a sheet, with a true trailer. */
void text_write_slip(struct text *text, const struct sheet *sheet);

#endif
