/* text.h - characters of a text, for a terminal and for JSON. */
#ifndef BULGEFS_TEXT_H
#define BULGEFS_TEXT_H

#include <stddef.h>
#include <stdint.h>

/* The length of the whole UTF-8 character at p, or 0 if there is none; length is not 0. */
size_t text_character(const uint8_t *p, size_t length, uint32_t *code);
/* Whether a character would move the cursor, end a line or turn the direction of a text, or is none by Unicode (a page may not have it). */
int text_is_control(uint32_t code);

#endif
