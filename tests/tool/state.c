#include "state.h"
#include "bulgefs.h"

#include <dirent.h>
#include <fcntl.h>
#include <stdio.h>
#include <stdlib.h>
#include <string.h>
#include <sys/stat.h>
#include <sys/wait.h>
#include <unistd.h>

void give_up(const char *what)
{
    perror(what);
    exit(2);
}

void *room(size_t length)
{
    void *bytes = malloc(length + 1);
    if (!bytes)
        give_up("malloc");
    return bytes;
}

void read_file(kept_file *f, const char *name)
{
    FILE *in = fopen(name, "rb");
    struct stat about;
    if (!in || fstat(fileno(in), &about) != 0 || strlen(name) >= MOST_NAME)
        give_up(name);
    snprintf(f->name, MOST_NAME, "%s", name);
    f->length = (size_t)about.st_size;
    f->bytes = room(f->length);
    if (fread(f->bytes, 1, f->length, in) != f->length)
        give_up(name);
    fclose(in);
    settle(f);
}

void settle(kept_file *f)
{
    f->recovered = room(f->length);
    if (f->length)
        memcpy(f->recovered, f->bytes, f->length);
    f->home = f->recovered;
    f->home_length = f->length;
    if (bulgefs_file_recover(f->recovered, f->length).number != 0)
        return;
    bulgefs_file_places p = bulgefs_file_parts(f->recovered, f->length);
    f->home = f->recovered + p.image_start;
    f->home_length = (size_t)p.image_length + p.journal_length + p.own_length;
}

void write_file(const kept_file *f)
{
    FILE *out = fopen(f->name, "wb");
    if (!out || fwrite(f->bytes, 1, f->length, out) != f->length || fclose(out) != 0)
        give_up(f->name);
}

static int is_part(const char *name)
{
    const char *end = strstr(name, ".bulgefs-new");
    return name[0] != '.' && !end;
}

state read_state(void)
{
    state s = { .count = 0 };
    DIR *folder = opendir(".");
    if (!folder)
        give_up("opendir");
    for (struct dirent *d; (d = readdir(folder));) {
        if (!is_part(d->d_name))
            continue;
        if (s.count == MOST_FILES)
            give_up("too many files");
        read_file(&s.files[s.count++], d->d_name);
    }
    closedir(folder);
    return s;
}

void free_state(state *s)
{
    for (int i = 0; i < s->count; i++)
        free(s->files[i].bytes), free(s->files[i].recovered);
    s->count = 0;
}

const kept_file *find(const state *s, const char *name)
{
    for (int i = 0; i < s->count; i++)
        if (strcmp(s->files[i].name, name) == 0)
            return &s->files[i];
    return NULL;
}

int same_state(const state *a, const state *b)
{
    if (a->count != b->count)
        return 0;
    for (int i = 0; i < a->count; i++) {
        const kept_file *f = &a->files[i], *g = find(b, f->name);
        if (!g || f->home_length != g->home_length || memcmp(f->home, g->home, f->home_length) != 0)
            return 0;
    }
    return 1;
}

void put_state(const state *s)
{
    DIR *folder = opendir(".");
    if (!folder)
        give_up("opendir");
    for (struct dirent *d; (d = readdir(folder));)
        if (strcmp(d->d_name, ".") != 0 && strcmp(d->d_name, "..") != 0 && !find(s, d->d_name) && unlink(d->d_name) != 0)
            give_up(d->d_name);
    closedir(folder);
    for (int i = 0; i < s->count; i++)
        write_file(&s->files[i]);
}

void tell_difference(const char *with, const state *is, const state *other)
{
    fprintf(stderr, "  beside the state %s:", with);
    for (int i = 0; i < is->count; i++) {
        const kept_file *f = &is->files[i], *g = find(other, f->name);
        if (!g)
            fprintf(stderr, " %s should not be there;", f->name);
        else if (f->home_length != g->home_length || memcmp(f->home, g->home, f->home_length) != 0)
            fprintf(stderr, " %s differs (%zu bytes, %zu wanted);", f->name, f->length, g->length);
    }
    for (int i = 0; i < other->count; i++)
        if (!find(is, other->files[i].name))
            fprintf(stderr, " %s is missing;", other->files[i].name);
    fputc('\n', stderr);
}

uint64_t fingerprint(const state *s)
{
    uint64_t all = 0;
    for (int i = 0; i < s->count; i++) {
        uint64_t sum = 14695981039346656037u;
        for (const char *c = s->files[i].name; *c; c++)
            sum = (sum ^ (uint8_t)*c) * 1099511628211u;
        sum *= 1099511628211u;
        for (size_t k = 0; k < s->files[i].length; k++)
            sum = (sum ^ s->files[i].bytes[k]) * 1099511628211u;
        all += sum ^ sum >> 29;
    }
    return all;
}

int run_with(char **argv, const char *const *pairs)
{
    pid_t child = fork();
    if (child < 0)
        give_up("fork");
    if (child == 0) {
        int said = open("../said", O_WRONLY | O_CREAT | O_TRUNC, 0600);
        if (said < 0 || dup2(said, 1) < 0 || dup2(said, 2) < 0)
            _exit(126);
        for (; *pairs; pairs += 2)
            setenv(pairs[0], pairs[1], 1);
        execv(argv[0], argv);
        _exit(127);
    }
    int status;
    if (waitpid(child, &status, 0) != child)
        give_up("waitpid");
    return WIFEXITED(status) ? WEXITSTATUS(status) : -1;
}
