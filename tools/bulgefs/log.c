/* log.c - lists the journal's records with the paths that each of them touches. */
#include <stdlib.h>
#include <string.h>

#include "look.h"

/* What a record changed, as lines or as JSON, is a text; NULL if that cannot be told. */
typedef struct { FILE *out; int json, count; } teller;

static int tell(void *ctx, const change *one)
{
    teller *t = ctx;
    if (t->json) {
        fputs(t->count ? "," : "", t->out);
        json_change(t->out, one);
    } else {
        fputs("    ", t->out);
        put_change(t->out, one);
    }
    t->count++;
    return 0;
}

/*
 * Takes copies back record by record and tells what each changed.  Gives 0, or
 * the refusal at which records are left that are not of this volume.
 */
static uint32_t tell_all(const store *s, size_t *left, char **texts, int json)
{
    bytes image = copy_bytes(&s->image), journal = copy_bytes(&s->journal), after = copy_bytes(&s->image);
    uint32_t number = BULGEFS_OK;
    while (*left && !number) {
        memory_text made;
        teller t = { NULL, json, 0 };
        text_begin(&made);
        t.out = made.out;
        number = undo_record(&image, &journal, &after, tell, &t);
        text_end(&made);
        if (number) free(made.text);
        else texts[--*left] = made.text;
    }
    free(image.bytes);
    free(journal.bytes);
    free(after.bytes);
    return number;
}

/* The numbers of the record's blocks, neighbours as "4-7" or each on its own. */
static void put_blocks(const bytes *journal, const record *one, int json)
{
    const uint8_t *at = journal->bytes + one->start + 4;
    for (uint32_t i = 0; i < one->blocks; i++) {
        uint32_t first = number_at(at + 516 * (size_t)i), last = first;
        if (i) fputs(json ? "," : ", ", stdout);
        while (!json && i + 1 < one->blocks && number_at(at + 516 * (size_t)(i + 1)) == last + 1) last++, i++;
        printf("%u", (unsigned)first);
        if (last != first) printf("-%u", (unsigned)last);
    }
}

static void put_lines(const store *s, const record_list *list, char *const *texts)
{
    uint32_t step = 0;
    for (size_t i = 0; i < list->count; i++) {
        const record *one = &list->records[i];
        if (one->step != step) printf("step %u\n", (unsigned)one->step);
        step = one->step;
        printf("  record %zu: %u bytes, %s ", i + 1, (unsigned)one->length, one->blocks == 1 ? "block" : "blocks");
        put_blocks(&s->journal, one, 0);
        fputc('\n', stdout);
        fputs(texts[i] ? texts[i] : "    ? not of this volume\n", stdout);
    }
    printf("%u %s, %zu %s; %u of %zu bytes used\n", (unsigned)list->steps, list->steps == 1 ? "step" : "steps",
           list->count, list->count == 1 ? "record" : "records", (unsigned)list->used, s->journal.length);
}

static void put_json(const store *s, const record_list *list, char *const *texts)
{
    printf("{\"used\":%u,\"length\":%zu,\"steps\":%u,\"records\":[", (unsigned)list->used, s->journal.length, (unsigned)list->steps);
    for (size_t i = 0; i < list->count; i++) {
        const record *one = &list->records[i];
        printf("%s{\"step\":%u,\"record\":%zu,\"start\":%u,\"length\":%u,\"blocks\":[", i ? "," : "",
               (unsigned)one->step, i + 1, (unsigned)one->start, (unsigned)one->length);
        put_blocks(&s->journal, one, 1);
        if (texts[i]) printf("],\"changes\":[%s]}", texts[i]);
        else fputs("],\"changes\":null}", stdout);
    }
    puts("]}");
}

static int show(const store *s, int json)
{
    record_list list;
    uint32_t number = steps_list(s, &list);
    size_t left;
    char **texts;
    if (number) return refuse(number, s->path);
    texts = take_memory((list.count + 1) * sizeof *texts);
    left = list.count;
    number = tell_all(s, &left, texts, json);
    if (json) put_json(s, &list, texts);
    else put_lines(s, &list, texts);
    for (size_t i = 0; i < list.count; i++) free(texts[i]);
    free(texts);
    free(list.records);
    return number ? refuse_record(s, number, left) : DONE;
}

int command_log(int argc, char **argv, const options *o)
{
    store s;
    int status;
    if (!good_arguments(&argc, argv, 1, 1)) return usage("log VOLUME");
    status = store_open(&s, argv[1], LOOK, o);
    if (status) return status;
    status = need_journal(&s);
    if (!status) status = show(&s, o->json);
    store_close(&s);
    return status;
}
