/*
 * faults TOOL VOLUME TWICE ARGUMENT...: runs TOOL ARGUMENT... in the current folder again and again and stops it at each of its system calls, before the
 * first, after half of each and after each, or has the call fail as on a full disk, or an allocation.  `check` then looks at the volume, a command that is
 * refused recovers it, and all files must mean what they meant before the command or after it, byte for byte.  If TWICE is 1, the recovery is stopped
 * too, at each of its calls, and must come to the same when it is made again.  The last line is `N passed, M failed`.
 */
#include "state.h"

#include <stdio.h>
#include <stdlib.h>
#include <string.h>

static char *const places[] = { "before", "half of", "after", "by an error of", "without memory in" };
static char *const values[] = { "before", "half", "after", "error", "memory" };
enum { BEFORE, HALF, AFTER, ERROR, MEMORY, MOST_ARGUMENTS = 16, MOST_SEEN = 4096 };

typedef struct {
    char *command[MOST_ARGUMENTS];
    char *check[4], *recovery[5];
    state before, after;
    int twice, passed, failed;
    uint64_t seen[MOST_SEEN]; /* the states that were recovered, and what came of each */
    int outcome[MOST_SEEN], seen_count;
    int is_after; /* whether a stop at this operation or before it has given the state after */
} trial;

static void judge(trial *t, int good, const char *what, int k, int place, int j)
{
    if (good) {
        t->passed++;
        return;
    }
    t->failed++;
    fprintf(stderr, "%s, stopped %s operation %d", t->command[1], places[place], k);
    if (j)
        fprintf(stderr, ", recovery stopped at %d", j);
    fprintf(stderr, ": %s\n", what);
}

static int run_to(char **argv, int k, int place)
{
    char number[16];
    snprintf(number, sizeof number, "%d", k);
    const char *pairs[] = { "BULGEFS_FAULT", number, "BULGEFS_FAULT_AT", values[place], NULL };
    return run_with(argv, pairs);
}

static int run_plain(char **argv)
{
    const char *none[] = { NULL };
    return run_with(argv, none);
}

/* How many calls there are, and allocations; the program has then done all of them. */
static int count(char **argv, int *allocations)
{
    const char *pairs[] = { "BULGEFS_FAULT", "count", NULL };
    run_with(argv, pairs);
    FILE *said = fopen("../said", "r");
    char line[256];
    int number = -1;
    while (said && fgets(line, sizeof line, said))
        sscanf(line, "operations %d, allocations %d", &number, allocations);
    if (said)
        fclose(said);
    if (number < 0)
        give_up("no count");
    return number;
}

/* What the files mean: 0 the state before, 1 the state after, -1 neither. */
static int meaning(const trial *t, const char *what, int status, int wanted)
{
    state now = read_state();
    int volume = find(&now, t->check[2]) != NULL;
    int is = status != (volume ? wanted : 2) ? -1 : same_state(&now, &t->before) ? 0 : same_state(&now, &t->after) ? 1 : -1;
    if (is < 0) {
        fprintf(stderr, "  %s gave status %d\n", what, status);
        tell_difference("before", &now, &t->before);
        tell_difference("after", &now, &t->after);
    }
    free_state(&now);
    return is;
}

/* Looks, and then recovers: both must come to the same. */
static int recover(trial *t)
{
    int seen = meaning(t, "check", run_plain(t->check), 0);
    int is = meaning(t, "the recovery", run_plain(t->recovery), 1);
    return seen == is ? is : -1;
}

/* The same; of a state that was recovered once already the outcome is known. */
static int recovered(trial *t)
{
    state now = read_state();
    uint64_t sum = fingerprint(&now);
    free_state(&now);
    for (int i = 0; i < t->seen_count; i++)
        if (t->seen[i] == sum)
            return t->outcome[i];
    int is = recover(t);
    if (t->seen_count < MOST_SEEN) {
        t->seen[t->seen_count] = sum;
        t->outcome[t->seen_count++] = is;
    }
    return is;
}

static int is_state(const state *wanted)
{
    state now = read_state();
    int same = same_state(&now, wanted);
    free_state(&now);
    return same;
}

/* The recovery itself is stopped, wherever it changes something. */
static void stop_recovery(trial *t, const state *stopped, int k, int place, int is)
{
    int allocations;
    put_state(stopped);
    int most = count(t->recovery, &allocations);
    for (int j = 1; j <= most; j++)
        for (int at = j == 1 ? BEFORE : HALF; at <= AFTER; at++) {
            put_state(stopped);
            judge(t, run_to(t->recovery, j, at) == STOPPED, "the recovery was not stopped", k, place, j);
            judge(t, recovered(t) == is, "the second recovery came to something else", k, place, j);
        }
}

static void stop(trial *t, int k, int place)
{
    put_state(&t->before);
    judge(t, run_to(t->command, k, place) == STOPPED, "it was not stopped", k, place, 0);
    state stopped = read_state();
    int known = t->seen_count, is = recovered(t);
    judge(t, is >= t->is_after, is < 0 ? "lost" : "it was the state after, and is not any more", k, place, 0);
    t->is_after = is > t->is_after ? is : t->is_after;
    if (is == 0 && known < t->seen_count)
        judge(t, run_plain(t->command) == 0 && is_state(&t->after), "the command cannot be made again", k, place, 0);
    if (is >= 0 && t->twice && known < t->seen_count)
        stop_recovery(t, &stopped, k, place, is);
    free_state(&stopped);
}

/* A call or an allocation fails and the command goes on: it ends with 2, or with 0 and the state after. */
static void fail(trial *t, int k, int place)
{
    put_state(&t->before);
    int status = run_to(t->command, k, place);
    judge(t, status == 0 || status == 2, "it gave another status", k, place, 0);
    int known = t->seen_count, is = recovered(t);
    judge(t, is >= (status == 0), is < 0 ? "lost" : "it said that it was done", k, place, 0);
    if (is == 0 && known < t->seen_count)
        judge(t, run_plain(t->command) == 0 && is_state(&t->after), "the command cannot be made again", k, place, 0);
}

int main(int argc, char **argv)
{
    static trial t;
    if (argc < 5 || argc - 2 >= MOST_ARGUMENTS)
        return 2;
    t.command[0] = argv[1];
    memcpy(t.command + 1, argv + 4, (size_t)(argc - 4) * sizeof *argv);
    t.check[0] = argv[1];
    t.check[1] = "check";
    t.check[2] = argv[2];
    t.recovery[0] = argv[1];
    t.recovery[1] = "rm";
    t.recovery[2] = argv[2];
    t.recovery[3] = "/no such file";
    t.twice = argv[3][0] == '1';
    t.before = read_state();
    int allocations = 0, most = count(t.command, &allocations);
    t.after = read_state();
    judge(&t, !same_state(&t.before, &t.after), "it changes nothing", 0, BEFORE, 0);
    for (int k = 1; k <= most; k++)
        for (int place = k == 1 ? BEFORE : HALF; place <= AFTER; place++)
            stop(&t, k, place);
    judge(&t, t.is_after == 1, "the last operation does not leave the state after", most, AFTER, 0);
    for (int k = 1; k <= most; k++)
        fail(&t, k, ERROR);
    for (int k = 1; k <= allocations; k++)
        fail(&t, k, MEMORY);
    put_state(&t.after);
    printf("%d calls, %d allocations, %d passed, %d failed\n", most, allocations, t.passed, t.failed);
    return t.failed != 0;
}
