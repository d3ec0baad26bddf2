/*
 * A simulated disk behind the table of system calls.  A write goes to a cache; its
 * sectors are on the disk after a flush.  Power can be cut at any call: then each
 * sector that was not flushed holds its old bytes, its new ones, a mixture or
 * neither, and each name that was not flushed is there or not.  Any call can fail,
 * be short or be interrupted.
 */
#ifndef DISK_H
#define DISK_H

#include "bulgefs_file.h"

/* What happens at the call with a given number. */
enum fault {
    NO_FAULT,
    FAILS,        /* it is not done; a flush that fails has lost some of the sectors, and forgets that */
    IS_FULL,      /* a write is not done, for want of room */
    MOVES_NONE,   /* a read or a write is done, and moves no byte */
    IS_SHORT,     /* a read or a write moves one byte, or half of the bytes */
    INTERRUPTED,  /* it is not done, and the caller is asked to do it again */
    CUT_BEFORE,   /* power is cut: neither this call nor a later one is done */
    CUT_HALF,     /* power is cut in the middle of a write */
    CUT_AFTER,    /* power is cut when this call is done */
    FAULTS
};

#define FAULT_NUMBER 117u   /* the system's error number of a call that fails */
#define FULL_NUMBER  28u

/* What an unflushed sector holds after a cut. */
enum outcome { OLD, NEW, MIXED, GARBAGE, OUTCOMES };

extern const bulgefs_system disk_system;

/* Counts since disk_arm, but for the last two, which are those of now. */
typedef struct {
    unsigned calls, flushes, writes, changes;
    unsigned long written;
    unsigned open, memory;
} disk_counts;
extern disk_counts disk_count;

uint32_t disk_random(uint32_t below);
void disk_seed(uint64_t seed);

/* An empty disk. */
void disk_new(void);
/* Begins to count; the call with number at, from 0 on, has this fault. */
void disk_arm(enum fault fault, unsigned at);
/* Whether the fault has come up. */
int disk_struck(void);
/* The BULGEFS_VOLUME_ error of the call that failed by the fault; 0 if none did, or if that call cannot fail. */
uint32_t disk_error(void);
/* How many sectors are not flushed. */
unsigned disk_unflushed(void);
/* Power comes back: outcomes[i] is that of the i-th unflushed sector; at random where outcomes is NULL. */
void disk_power(const uint8_t *outcomes);
/* The program is killed: files are closed, and the cache stays. */
void disk_kill(void);
/* If not NULL, what another program does just before the next lock; done once. */
extern void (*disk_meanwhile)(void);
/* A copy of the disk and its way back. */
void disk_keep(void);
void disk_back(void);
/* The bytes of a file as a program sees them; NULL if there is none. */
uint8_t *disk_bytes(const char *path, size_t *length);
/* Puts a file on the disk, flushed. */
void disk_put(const char *path, const uint8_t *bytes, size_t length);

#endif
