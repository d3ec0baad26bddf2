/*
 * Histories at random against a model in memory.  A program opens a volume file,
 * changes it, saves it, grows it, closes it; its calls fail, it is killed, power is
 * cut, also while it recovers.  The model knows what the last save left, and what
 * each save since that did not come to its end would have left.  At every open the
 * file holds one of these, whole, and undo to the first mark gives the start.
 */
#include "disk.h"
#include "pair.h"

#include <stdio.h>
#include <stdlib.h>
#include <string.h>

static pair saved, tried;   /* what the file held, and what was then being saved */
static int two;             /* whether it may be either */
static unsigned opens, olds, news, saves, cuts, kills, errors, grown;

static int may_be(const pair *p)
{
    if (two && pair_same(p, &tried)) {
        news++;
        return 1;
    }
    olds += (unsigned)two;
    return pair_same(p, &saved);
}

/* At a call that was the last, power was cut or the program was killed. */
static void end_at_once(void)
{
    if (disk_random(2)) {
        disk_power(NULL);
        cuts++;
    } else {
        disk_kill();
        kills++;
    }
}

/* The program ends: it closes the file, is killed, or power is cut. */
static void end(bulgefs_volume_file *v, int dead)
{
    bulgefs_volume_close(v);
    if (dead || disk_random(3))
        end_at_once();
}

static int is_cut(enum fault fault)
{
    return fault >= CUT_BEFORE;
}

/* Opens the file; the open may be cut or fail, and is then done again. */
static int open_again(bulgefs_volume_file *v)
{
    pair now;
    for (int turn = 0; turn < 4; turn++) {
        enum fault fault = disk_random(2) ? NO_FAULT : (enum fault)disk_random(FAULTS);
        disk_arm(turn < 3 ? fault : NO_FAULT, disk_random(20));
        if (bulgefs_volume_open(v, "v", BULGEFS_VOLUME_CHANGE, &disk_system).error == 0 && !disk_struck())
            break;
        end(v, is_cut(fault) && disk_struck());
    }
    if (!v->image)
        return 0;
    opens++;
    pair_take(&now, v);
    if (!may_be(&now) || !pair_goes_back(&now)) {
        bulgefs_volume_close(v);
        return 0;
    }
    saved = now;
    two = 0;
    return 1;
}

/* A save, which may fail or be cut.  Answers whether the volume can be used any more. */
static int save_at_random(bulgefs_volume_file *v)
{
    enum fault fault = disk_random(3) ? NO_FAULT : (enum fault)disk_random(FAULTS);
    bulgefs_volume_result r;
    pair_take(&tried, v);
    disk_arm(fault, disk_random(14));
    r = bulgefs_volume_save(v);
    saves++;
    if (r.error == 0)
        saved = tried;
    else
        errors++;
    two = r.error != 0;
    if (r.error || (is_cut(fault) && disk_struck())) {
        end(v, is_cut(fault) && disk_struck());
        return 0;
    }
    disk_arm(NO_FAULT, 0);
    return 1;
}

static void grow_at_random(void)
{
    enum fault fault = disk_random(2) ? NO_FAULT : (enum fault)disk_random(FAULTS);
    disk_arm(fault, disk_random(24));
    grown += bulgefs_volume_grow("v", LONG_JOURNAL, &disk_system).error == 0;
    if (is_cut(fault) && disk_struck())
        end_at_once();
    disk_arm(NO_FAULT, 0);
}

static int history(unsigned events)
{
    bulgefs_volume_file v;
    disk_new();
    pair_start(&saved);
    two = 0;
    if (bulgefs_volume_create("v", saved.image, IMAGE_LEN, saved.journal, JOURNAL_LEN, saved.own, OWN_LEN,
                              &disk_system).error || !open_again(&v))
        return 0;
    while (events--) {
        unsigned kind = disk_random(16);
        int open = 1;
        if (kind < 9) {
            pair_change(v.image, v.journal, v.journal_len, v.own, disk_random);
        } else if (kind < 14) {
            open = save_at_random(&v);
        } else {
            end(&v, kind == 14);
            open = 0;
            if (kind == 15 && disk_random(2))
                grow_at_random();
        }
        if (!open && !open_again(&v))
            return 0;
    }
    bulgefs_volume_close(&v);
    return disk_count.open == 0 && disk_count.memory == 0;
}

int main(int argc, char **argv)
{
    unsigned rounds = argc > 1 ? (unsigned)atoi(argv[1]) : 3000;
    setvbuf(stdout, NULL, _IOLBF, 0);
    for (unsigned round = 0; round < rounds; round++) {
        disk_seed(round + 1);
        judge(history(40), "history %u", round);
    }
    printf("%u opens, %u saves, %u errors, %u power cuts, %u kills, %u grown; in doubt %u old, %u new\n", opens, saves,
           errors, cuts, kills, grown, olds, news);
    judge(olds > 100 && news > 100 && kills > 100 && grown > 100, "every kind of event comes up");
    return finish_tests();
}
