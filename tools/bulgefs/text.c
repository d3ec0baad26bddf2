/* Words of the looks: names, times, permissions, and how their arguments are read. */
#include <inttypes.h>
#include <stdlib.h>
#include <string.h>
#include <time.h>

#include "look.h"
#include "text.h"

#define LAST_TIME UINT64_C(253402300799999)   /* the end of the year 9999 */

size_t text_character(const uint8_t *p, size_t length, uint32_t *code)
{
    static const uint32_t least[5] = { 0, 0, 0x80, 0x800, 0x10000 };
    size_t i, size = p[0] < 0x80 ? 1 : p[0] < 0xC0 ? 0 : p[0] < 0xE0 ? 2
                   : p[0] < 0xF0 ? 3 : p[0] < 0xF8 ? 4 : 0;
    if (size == 0 || size > length) return 0;
    *code = size == 1 ? p[0] : p[0] & (0xFFu >> (size + 1));
    for (i = 1; i < size; i++) {
        if ((p[i] & 0xC0) != 0x80) return 0;
        *code = *code << 6 | (p[i] & 0x3Fu);
    }
    if (*code < least[size] || *code > 0x10FFFF || (*code >= 0xD800 && *code <= 0xDFFF)) return 0;
    return size;
}

int text_is_control(uint32_t code)
{
    return code < 0x20 || (code >= 0x7F && code < 0xA0) || (code >= 0x2028 && code <= 0x202E)
        || (code >= 0x2066 && code <= 0x2069) || code == 0x200E || code == 0x200F
        || code == 0x61C || code == 0xFEFF || (code >= 0xFDD0 && code <= 0xFDEF) || (code & 0xFFFE) == 0xFFFE;
}

void put_text(FILE *out, const uint8_t *text, size_t length)
{
    size_t at = 0, size, i;
    uint32_t code = 0;
    while (at < length) {
        size = text_character(text + at, length - at, &code);
        if (text[at] == '\\') {
            fputs("\\\\", out);
        } else if (size != 0 && !text_is_control(code)) {
            fwrite(text + at, 1, size, out);
        } else {
            for (i = 0; i < size || i == 0; i++) fprintf(out, "\\x%02x", text[at + i]);
        }
        at += size == 0 ? 1 : size;
    }
}

void put_path(FILE *out, const char *path)
{
    put_text(out, (const uint8_t *)path, strlen(path));
}

static void put_markup_byte(FILE *out, char c)
{
    switch (c) {
    case '<': fputs("&lt;", out); break;
    case '>': fputs("&gt;", out); break;
    case '&': fputs("&amp;", out); break;
    case '"': fputs("&quot;", out); break;
    default: fputc(c, out); break;
    }
}

void put_markup(FILE *out, const char *text)
{
    memory_text plain;
    size_t i;
    text_begin(&plain);
    put_path(plain.out, text);
    text_end(&plain);
    for (i = 0; i < plain.length; i++) put_markup_byte(out, plain.text[i]);
    free(plain.text);
}

void put_time(FILE *out, uint64_t milliseconds)
{
    time_t seconds = (time_t)(milliseconds / 1000);
    struct tm parts;
    char text[32];
    if (milliseconds > LAST_TIME || gmtime_r(&seconds, &parts) == NULL
        || strftime(text, sizeof text, "%Y-%m-%d %H:%M:%S", &parts) == 0)
        fprintf(out, "%" PRIu64 " ms", milliseconds);
    else fprintf(out, "%s.%03uZ", text, (unsigned)(milliseconds % 1000));
}

void put_permissions(FILE *out, uint8_t permissions)
{
    static const char letters[9] = "xsrwrwrw";
    int bit;
    for (bit = 0; bit < 8; bit++) fputc(permissions & (0x80u >> bit) ? letters[bit] : '-', out);
}

void put_uuid(FILE *out, const volume_info *volume)
{
    size_t i;
    for (i = 0; i < 16; i++) fprintf(out, i == 4 || i == 6 || i == 8 || i == 10 ? "-%02x" : "%02x", volume->labels[i]);
}

size_t volume_name(const volume_info *volume, const uint8_t **name)
{
    size_t length = 0;
    *name = volume->labels + 16;
    while (length < BULGEFS_VOLUME_NAME_SIZE && (*name)[length] != 0) length++;
    return length;
}

void put_count(FILE *out, uint64_t count, const char *one, const char *many)
{
    fprintf(out, "%" PRIu64 " %s", count, count == 1 ? one : many);
}

int open_sound(store *s, const char *path, const options *o)
{
    int status = store_open(s, path, LOOK, o);
    uint32_t number;
    if (status != DONE) return status;
    number = bulgefs_check(s->image.bytes, s->image.length);
    if (number == 0) return DONE;
    store_close(s);
    return refuse(number, path);
}

/* Takes the argument at i away. */
static void take_argument(int *argc, char **argv, int i)
{
    for (*argc -= 1; i < *argc; i++) argv[i] = argv[i + 1];
    argv[*argc] = NULL;
}

int take_flag(int *argc, char **argv, const char *flag)
{
    int i, given = 0;
    for (i = 1; i < *argc && strcmp(argv[i], "--") != 0; ) {
        if (strcmp(argv[i], flag) == 0) {
            take_argument(argc, argv, i);
            given = 1;
        } else {
            i++;
        }
    }
    return given;
}

int take_value(int *argc, char **argv, const char *flag, const char **value)
{
    int i;
    for (i = 1; i < *argc && strcmp(argv[i], "--") != 0; i++) {
        if (strcmp(argv[i], flag) != 0) continue;
        if (i + 1 >= *argc) return 0;
        *value = argv[i + 1];
        take_argument(argc, argv, i);
        take_argument(argc, argv, i);
        return 1;
    }
    return 1;
}

int good_arguments(int *argc, char **argv, int least, int most)
{
    int i;
    for (i = 1; i < *argc; i++) {
        if (strcmp(argv[i], "--") == 0) {
            take_argument(argc, argv, i);
            break;
        }
        if (argv[i][0] == '-' && argv[i][1] != 0) return 0;
    }
    return *argc - 1 >= least && *argc - 1 <= most;
}
