/* JSON: strings of any bytes, and entries. */
#include <inttypes.h>
#include <string.h>

#include "look.h"
#include "json.h"
#include "text.h"

static void json_character(FILE *out, const uint8_t *p, size_t size, uint32_t code)
{
    if (code == '"' || code == '\\') fprintf(out, "\\%c", (int)code);
    else if (code < 0x10000 && text_is_control(code)) fprintf(out, "\\u%04" PRIx32, code);
    else fwrite(p, 1, size, out);
}

/* A byte of no UTF-8 character becomes the lone surrogate U+DC00 + byte, so that none is lost. */
void json_string(FILE *out, const uint8_t *text, size_t length)
{
    size_t at = 0, size;
    uint32_t code = 0;
    fputc('"', out);
    while (at < length) {
        size = text_character(text + at, length - at, &code);
        if (size == 0) fprintf(out, "\\udc%02x", text[at]);
        else json_character(out, text + at, size, code);
        at += size == 0 ? 1 : size;
    }
    fputc('"', out);
}

void json_text(FILE *out, const char *text)
{
    json_string(out, (const uint8_t *)text, strlen(text));
}

void json_entry(FILE *out, const char *path, const entry *e)
{
    fputs("{\"path\":", out);
    json_text(out, path);
    fputs(",\"name\":", out);
    json_string(out, e->name, e->name_length);
    fprintf(out, ",\"kind\":\"%s\"", view_is_directory(e) ? "directory" : "file");
    fprintf(out, ",\"type\":%u,\"user\":%u,\"group\":%u,\"permissions\":%u",
            e->type, e->user, e->group, e->permissions);
    fprintf(out, ",\"size\":%" PRIu32 ",\"blocks\":%" PRIu32 ",\"first\":%" PRIu32,
            e->size, e->blocks, e->first);
    fprintf(out, ",\"created\":%" PRIu64 ",\"modified\":%" PRIu64, e->created, e->modified);
    fprintf(out, ",\"attribute_block\":%" PRIu32 ",\"attribute_blocks\":%" PRIu32,
            e->attribute_block, e->attribute_size);
    fprintf(out, ",\"flags\":%" PRIu32 ",\"slot\":%" PRIu32 "}", e->flags, e->slot);
}
