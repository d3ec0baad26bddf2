/* settings.c - settings by serial number: the latest revision, put, get, history. */
#include <inttypes.h>
#include <stdlib.h>
#include <string.h>

#include "look.h"
#include "text.h"

/* A revision as the library gave it. */
typedef struct { bulgefs_got got; uint8_t data[BULGEFS_MAX_SETTINGS]; } revision;

/* A box: the directory of its settings and its serial number, and both as they were typed. */
typedef struct {
    const char *text;
    const uint8_t *directory, *serial;
    size_t directory_length, serial_length;
} box;

/* What is typed without a '/' is a serial number in the root; else the serial number stands after the last '/', and the directory before it. */
static box box_of(const char *text)
{
    const char *slash = strrchr(text, '/');
    box b = { text, (const uint8_t *)"/", (const uint8_t *)text, 1, strlen(text) };
    if (!slash) return b;
    b.serial = (const uint8_t *)slash + 1;
    b.serial_length = strlen(slash + 1);
    if (slash == text) return b;
    b.directory = (const uint8_t *)text;
    b.directory_length = (size_t)(slash - text);
    return b;
}

/* Of bad settings the words say what is wrong with them. */
static int refuse_box(uint32_t number, const box *b, size_t length)
{
    if (number != BULGEFS_BAD_SETTINGS) return refuse(number, b->text);
    return refuse_because(number, b->text, length > BULGEFS_MAX_SETTINGS ? "settings have at most 200 bytes"
        : "a box is a serial number of 1 to 16 letters and digits, or a folder and a serial number as /venue/SN4471");
}

static revision get_latest(const store *s, const box *b)
{
    revision r;
    r.got = bulgefs_get_latest_settings_in(s->image.bytes, s->image.length, b->directory, b->directory_length, b->serial, b->serial_length, r.data,
                                           sizeof r.data);
    return r;
}

static revision get_revision(const store *s, const box *b, uint32_t number)
{
    revision r;
    r.got = bulgefs_get_settings_in(s->image.bytes, s->image.length, b->directory, b->directory_length, b->serial, b->serial_length, number, r.data,
                                    sizeof r.data);
    return r;
}

static int refuse_revision(uint32_t refusal, const box *b, uint32_t number)
{
    if (refusal != BULGEFS_NO_REVISION) return refuse_box(refusal, b, 0);
    say("%s: refused (%u): %s: %" PRIu32 "; `bulgefs history` lists those that stand", b->text, (unsigned)refusal, bulgefs_text(refusal), number);
    return REFUSED;
}

/* Says the latest revision's number. */
static int look(const char *volume, const box *b, const options *o)
{
    revision latest;
    store s;
    int status = store_open(&s, volume, LOOK, o);
    if (status) return status;
    latest = get_latest(&s, b);
    store_close(&s);
    if (latest.got.number) return refuse_box(latest.got.number, b, 0);
    printf("%" PRIu32 "\n", latest.got.revision);
    return DONE;
}

/* Writes a revision to a file, the latest if none is named. */
static int get(const char *volume, const box *b, const char *to, const char *which, const options *o)
{
    uint64_t number = 0;
    revision r;
    store s;
    int status = which ? read_number(which, "REVISION", 0, UINT32_MAX, &number) : DONE;
    if (!status) status = store_open(&s, volume, LOOK, o);
    if (status) return status;
    r = which ? get_revision(&s, b, (uint32_t)number) : get_latest(&s, b);
    store_close(&s);
    if (r.got.number) return refuse_revision(r.got.number, b, (uint32_t)number);
    return write_output(to, r.data, r.got.length);
}

/* Puts the bytes of a file as a new revision, and says its number. */
static int put(const char *volume, const box *b, const char *from, const options *o)
{
    bulgefs_put done = { 0, 0, 0 };
    uint64_t time;
    bytes data;
    store s;
    int status = read_time(&time);
    if (!status) status = read_input(from, BULGEFS_MAX_SETTINGS, &data);
    if (status) return status;
    status = store_open(&s, volume, CHANGE, o);
    if (!status) {
        done = bulgefs_put_settings_in(s.image.bytes, s.image.length, s.journal.bytes, s.journal.length, b->directory, b->directory_length, b->serial,
                                       b->serial_length, data.bytes, data.length, time);
        status = store_finish(&s, done.number ? refuse_box(done.number, b, data.length) : DONE);
    }
    if (!status) printf("revision %" PRIu32 "\n", done.revision);
    free(data.bytes);
    return status;
}

int command_settings(int argc, char **argv, const options *o)
{
    int good = good_arguments(&argc, argv, 2, 5);
    box b;
    if (!good) return usage("settings VOLUME BOX [put FILE|get FILE [REVISION]]");
    b = box_of(argv[2]);
    if (argc == 3) return look(argv[1], &b, o);
    if (argc == 5 && !strcmp(argv[3], "put")) return put(argv[1], &b, argv[4], o);
    if (argc >= 5 && !strcmp(argv[3], "get")) return get(argv[1], &b, argv[4], argc == 6 ? argv[5] : NULL, o);
    return usage("settings VOLUME BOX [put FILE|get FILE [REVISION]]");
}

/* Whether all bytes are characters of UTF-8; of those that move the cursor only a tab and the end of a line. */
static int is_text(const revision *r)
{
    size_t at = 0, size;
    uint32_t code = 0;
    for (; at < r->got.length; at += size) {
        size = text_character(r->data + at, r->got.length - at, &code);
        if (!size || (text_is_control(code) && code != '\n' && code != '\t')) return 0;
    }
    return 1;
}

static void put_hex(const revision *r)
{
    for (size_t i = 0; i < r->got.length; i++) printf("%02x", r->data[i]);
}

static void put_line(const revision *r)
{
    printf("revision %" PRIu32 ", %" PRIu32 " byte%s", r->got.revision, r->got.length, r->got.length == 1 ? "" : "s");
    if (r->got.length) fputs(is_text(r) ? ": " : ", hex: ", stdout);
    if (is_text(r)) put_text(stdout, r->data, r->got.length);
    else put_hex(r);
    putchar('\n');
}

static void json_revision(const revision *r)
{
    printf("{\"revision\":%" PRIu32 ",\"length\":%" PRIu32 ",\"text\":", r->got.revision, r->got.length);
    if (is_text(r)) json_string(stdout, r->data, r->got.length);
    else fputs("null", stdout);
    fputs(",\"hex\":\"", stdout);
    put_hex(r);
    fputs("\"}", stdout);
}

/* The revisions that stand, oldest first: they end with the latest, and are at most so many. */
static void list(const store *s, const box *b, uint32_t latest, int json)
{
    uint32_t number = latest > BULGEFS_MAX_REVISIONS ? latest - BULGEFS_MAX_REVISIONS : 0;
    int first = 1;
    while (number++ < latest) {
        revision r = get_revision(s, b, number);
        if (r.got.number) continue;
        if (json && !first) fputs(",\n", stdout);
        first = 0;
        if (json) json_revision(&r);
        else put_line(&r);
    }
}

/* The directory only if one was typed. */
static void json_box(const box *b)
{
    putchar('{');
    if (b->text[0] == '/') {
        fputs("\"directory\":", stdout);
        json_string(stdout, b->directory, b->directory_length);
        putchar(',');
    }
    fputs("\"serial\":", stdout);
    json_string(stdout, b->serial, b->serial_length);
}

int command_history(int argc, char **argv, const options *o)
{
    revision latest;
    store s;
    box b;
    int status;
    if (!good_arguments(&argc, argv, 2, 2)) return usage("history VOLUME BOX");
    b = box_of(argv[2]);
    status = store_open(&s, argv[1], LOOK, o);
    if (status) return status;
    latest = get_latest(&s, &b);
    if (latest.got.number) {
        store_close(&s);
        return refuse_box(latest.got.number, &b, 0);
    }
    if (o->json) {
        json_box(&b);
        printf(",\"latest\":%" PRIu32 ",\"revisions\":[\n", latest.got.revision);
    }
    list(&s, &b, latest.got.revision, o->json);
    if (o->json) puts("\n]}");
    store_close(&s);
    return DONE;
}
