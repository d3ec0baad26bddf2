/* ls [-l] [-R] VOLUME [PATH]: names, or a line for each entry, or all of it as JSON. */
#include <inttypes.h>

#include "look.h"
#include "json.h"

typedef struct { int all_fields, recursive, json, count; } list_form;

/* Type, permissions, user, group, bytes, blocks, blocks of attributes, time modified. */
static void print_fields(const entry *e)
{
    putchar(view_is_directory(e) ? 'd' : '-');
    put_permissions(stdout, e->permissions);
    printf(" %3u %3u %9" PRIu32 " %5" PRIu32 " ", e->user, e->group, e->size, e->blocks);
    if (e->attribute_size == 0) printf(" - ");
    else printf("+%" PRIu32 " ", e->attribute_size);
    put_time(stdout, e->modified);
    printf("  ");
}

static int print_entry(void *context, const char *path, const entry *e)
{
    list_form *form = context;
    if (form->json) {
        printf(form->count == 0 ? "\n" : ",\n");
        json_entry(stdout, path, e);
        form->count++;
        return 0;
    }
    if (form->all_fields) print_fields(e);
    if (form->recursive) put_path(stdout, path);
    else put_text(stdout, e->name, e->name_length);
    printf(view_is_directory(e) ? "/\n" : "\n");
    return 0;
}

int command_ls(int argc, char **argv, const options *o)
{
    list_form form = { 0, 0, o->json, 0 };
    const char *path;
    store s;
    int status, both = take_flag(&argc, argv, "-lR") | take_flag(&argc, argv, "-Rl");
    form.all_fields = take_flag(&argc, argv, "-l") | both;
    form.recursive = take_flag(&argc, argv, "-R") | both;
    if (!good_arguments(&argc, argv, 1, 2)) return usage("ls [-l] [-R] VOLUME [PATH]");
    path = argc > 2 ? argv[2] : "/";
    status = open_sound(&s, argv[1], o);
    if (status != DONE) return status;
    if (view_find(&s.image, path, &(entry){ 0 }) != 0) {
        status = refuse_path(&s, view_refusal(&s.image, path), path);
    } else {
        if (o->json) printf("[");
        view_each(&s.image, path, form.recursive, print_entry, &form);
        if (o->json) printf(form.count == 0 ? "]\n" : "\n]\n");
    }
    store_close(&s);
    return status;
}
