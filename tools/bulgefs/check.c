/* check VOLUME: the library's verdict, and for an image that is not sound a plain explanation. */
#include <inttypes.h>
#include <stdlib.h>

#include "look.h"
#include "json.h"

static const char *const not_proved =
    "the verdict is the library's; the explanation is plain code and not proved";

static void print_counts(const bytes *image)
{
    listing list = listing_scan(image);
    totals sum = listing_totals(image, &list);
    bulgefs_volume v = view_volume(image).numbers;
    printf("sound\n");
    printf("blocks %" PRIu32 ", used %" PRIu32 ", free %" PRIu32 "\n", v.blocks, v.used, v.free);
    put_count(stdout, sum.directories, "folder", "folders");
    printf(" below the root, ");
    put_count(stdout, sum.files, "file", "files");
    printf(" of ");
    put_count(stdout, sum.file_bytes, "byte", "bytes");
    printf(", %" PRIu32 " with attributes\n", sum.with_attributes);
    listing_free(&list);
}

static void json_counts(const bytes *image)
{
    listing list = listing_scan(image);
    totals sum = listing_totals(image, &list);
    bulgefs_volume v = view_volume(image).numbers;
    printf(",\"blocks\":%" PRIu32 ",\"used\":%" PRIu32 ",\"free\":%" PRIu32, v.blocks, v.used, v.free);
    printf(",\"directories\":%" PRIu32 ",\"files\":%" PRIu32 ",\"bytes\":%" PRIu64
           ",\"with_attributes\":%" PRIu32, sum.directories, sum.files, sum.file_bytes,
           sum.with_attributes);
    listing_free(&list);
}

static void print_text(const char *name, const char *text)
{
    if (text[0] == 0) return;
    printf("  %-9s ", name);
    put_path(stdout, text);
    putchar('\n');
}

static void print_fault(const fault *f)
{
    printf("  %-9s %" PRIu32 ", %s\n", "stage", f->stage, stage_name(f->stage));
    print_text("path", f->path);
    if (f->slot >= 0) printf("  %-9s %ld\n", "slot", f->slot);
    if (f->block >= 0) printf("  %-9s %ld\n", "block", f->block);
    print_text("rule", f->rule);
    print_text("expected", f->expected);
    print_text("found", f->found);
}

/* The two ways disagree: that is said, and the number stands. */
static void print_other_stage(const fault *f, uint32_t number)
{
    if (f->stage == 0)
        printf("  no explanation: the plain code finds no fault, and the number %" PRIu32 " stands\n",
               number);
    else
        printf("  no explanation: the plain code finds a fault of stage %" PRIu32
               " first, and the number %" PRIu32 " stands\n", f->stage, number);
}

static void json_fault(const fault *f, uint32_t number)
{
    printf(",\"explanation\":{\"proved\":false,\"agrees\":%s",
           f->stage == number ? "true" : "false");
    printf(",\"stage\":%" PRIu32, f->stage);
    if (f->stage == number) {
        printf(",\"stage_name\":");
        json_text(stdout, stage_name(f->stage));
        printf(",\"path\":");
        json_text(stdout, f->path);
        if (f->slot >= 0) printf(",\"slot\":%ld", f->slot);
        if (f->block >= 0) printf(",\"block\":%ld", f->block);
        printf(",\"rule\":");
        json_text(stdout, f->rule);
        printf(",\"expected\":");
        json_text(stdout, f->expected);
        printf(",\"found\":");
        json_text(stdout, f->found);
    }
    printf("}");
}

static void say_image(const bytes *image, uint32_t number)
{
    fault f;
    if (number == 0) {
        print_counts(image);
        return;
    }
    f = explain(image);
    printf("not sound: %" PRIu32 ", %s\n", number, bulgefs_text(number));
    printf("  (%s)\n", not_proved);
    if (f.stage == number) print_fault(&f);
    else print_other_stage(&f, number);
}

static void json_image(const bytes *image, uint32_t number)
{
    fault f;
    printf("{\"sound\":%s,\"number\":%" PRIu32 ",\"text\":", number == 0 ? "true" : "false", number);
    json_text(stdout, bulgefs_text(number));
    if (number == 0) {
        json_counts(image);
    } else {
        f = explain(image);
        json_fault(&f, number);
    }
}

/* The journal, of which a sound image alone can tell: 0, or 8 where it is not well formed. */
static uint32_t say_journal(const store *s, int json)
{
    record_list list = { NULL, 0, 0, 0 };
    uint32_t number;
    if (s->journal.bytes == NULL) {
        printf(json ? ",\"journal\":null" : "no journal\n");
        return 0;
    }
    number = steps_list(s, &list);
    if (number != 0) {
        printf(json ? ",\"journal\":{\"number\":%" PRIu32 "}" : "journal: %" PRIu32 ", not well formed\n",
               number);
        return number;
    }
    printf(json ? ",\"journal\":{\"number\":0,\"records\":%zu,\"steps\":%" PRIu32
                  ",\"used\":%" PRIu32 ",\"length\":%zu}"
                : "journal well formed, records %zu, steps %" PRIu32 ", used %" PRIu32
                  " of %zu bytes\n", list.count, list.steps, list.used, s->journal.length);
    free(list.records);
    return 0;
}

int command_check(int argc, char **argv, const options *o)
{
    store s;
    uint32_t number, journal = 0;
    int status;
    if (!good_arguments(&argc, argv, 1, 1)) return usage("check VOLUME");
    status = store_open(&s, argv[1], LOOK, o);
    if (status != DONE) return status;
    number = bulgefs_check(s.image.bytes, s.image.length);
    if (o->json) json_image(&s.image, number);
    else say_image(&s.image, number);
    if (number == 0) journal = say_journal(&s, o->json);
    if (o->json) printf("}\n");
    store_close(&s);
    return number == 0 && journal == 0 ? DONE : REFUSED;
}
