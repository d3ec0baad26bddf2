/*
 * bulgefs_file.h - keeps a volume file (bulgefs.h) on a disk.
 *
 * bulgefs.h works on memory.  This layer opens a volume file, lends its image,
 * its journal and the program's own bytes, and saves all three whole or not at
 * all.  docs/SAVING.md shows a program.  Compile file/bulgefs_file.c and
 * file/bulgefs_system.c with your program, and link libbulgefs.a.
 *
 * The layer knows nothing of the layout: every place that it writes is one that
 * the proved calls of bulgefs.h answer.  The layer itself is tested, not proved.
 *
 * Threads: a bulgefs_volume_file is used by one thread at a time.
 */
#ifndef BULGEFS_FILE_H
#define BULGEFS_FILE_H

#include "bulgefs.h"

#ifdef __cplusplus
extern "C" {
#endif

/* Why a call was not done. */
enum bulgefs_volume_error {
    BULGEFS_VOLUME_OK        = 0,
    BULGEFS_VOLUME_NO_MEMORY = 1,  /* there is not enough memory                         */
    BULGEFS_VOLUME_BAD_SIZE  = 2,  /* there is no volume file of these lengths           */
    BULGEFS_VOLUME_BAD_PATH  = 3,  /* the path has no bytes, or too many                 */
    BULGEFS_VOLUME_OPEN      = 4,  /* a file could not be opened or made                 */
    BULGEFS_VOLUME_BUSY      = 5,  /* another program, or another open of this one, has it */
    BULGEFS_VOLUME_LOCK      = 6,  /* a file could not be locked                         */
    BULGEFS_VOLUME_READ      = 7,  /* a file could not be read                           */
    BULGEFS_VOLUME_REFUSED   = 8,  /* the file is no volume file: refusal says why       */
    BULGEFS_VOLUME_WRITE     = 9,  /* a file could not be written, as on a full disk     */
    BULGEFS_VOLUME_FLUSH     = 10, /* what was written may not have reached the disk     */
    BULGEFS_VOLUME_RENAME    = 11, /* a new file could not get its name                  */
    BULGEFS_VOLUME_EXISTS    = 12, /* create, import, export: something has that name    */
    BULGEFS_VOLUME_LOOK_ONLY = 13, /* save: the volume file was opened to look           */
    BULGEFS_VOLUME_NOT_OPEN  = 14  /* save: it is not open, or an earlier save failed    */
};

/* Words for such an error. */
BULGEFS_INLINE const char *bulgefs_volume_text(uint32_t error)
{
    switch (error) {
    case BULGEFS_VOLUME_OK:        return "done";
    case BULGEFS_VOLUME_NO_MEMORY: return "not enough memory";
    case BULGEFS_VOLUME_BAD_SIZE:  return "no volume file has these lengths";
    case BULGEFS_VOLUME_BAD_PATH:  return "path is empty or too long";
    case BULGEFS_VOLUME_OPEN:      return "file cannot be opened";
    case BULGEFS_VOLUME_BUSY:      return "file is in use";
    case BULGEFS_VOLUME_LOCK:      return "file cannot be locked";
    case BULGEFS_VOLUME_READ:      return "file cannot be read";
    case BULGEFS_VOLUME_REFUSED:   return "not a volume file";
    case BULGEFS_VOLUME_WRITE:     return "file cannot be written";
    case BULGEFS_VOLUME_FLUSH:     return "file may not have reached the disk";
    case BULGEFS_VOLUME_RENAME:    return "file cannot be renamed";
    case BULGEFS_VOLUME_EXISTS:    return "file exists already";
    case BULGEFS_VOLUME_LOOK_ONLY: return "volume file was opened to look";
    case BULGEFS_VOLUME_NOT_OPEN:  return "volume file is not open, or an earlier save failed";
    default:                       return "no error of a volume file";
    }
}

/*
 * What a call answers.  refusal is a BULGEFS_FILE_ number where error is
 * BULGEFS_VOLUME_REFUSED, else 0.  system is what the system said (errno, or
 * GetLastError()) where a system call failed, else 0.
 */
typedef struct {
    uint32_t error;
    uint32_t refusal;
    uint32_t system;
} bulgefs_volume_result;

/*
 * The system calls of the layer.  bulgefs_this_system has those of POSIX and of
 * Windows; a test or another system brings its own.
 *
 * A call answers 0 or more if it was done, and one of the numbers below if it was
 * not.  Then *number gets the system's error number.  context is handed to each.
 * A call that was interrupted is made again by the layer.
 */
#define BULGEFS_SYSTEM_FAILED      (-1)
#define BULGEFS_SYSTEM_INTERRUPTED (-2)
#define BULGEFS_SYSTEM_BUSY        (-3)  /* open, lock: another program has the file */
#define BULGEFS_SYSTEM_EXISTS      (-4)  /* rename: the new name is taken            */

#define BULGEFS_SYSTEM_LOOK        0     /* open: for reading                        */
#define BULGEFS_SYSTEM_CHANGE      1     /* open: for reading and writing            */
#define BULGEFS_SYSTEM_MAKE        2     /* open: the same; make it if it is missing */

typedef struct {
    void *context;
    /* Memory of size bytes, at least 1, or NULL; and the end of it, also of NULL. */
    void *(*allocate)(void *context, size_t size);
    void (*release)(void *context, void *memory);
    /* Opens a file. */
    int64_t (*open)(void *context, const char *path, int how, intptr_t *file, uint32_t *number);
    /* Locks a file until it is closed, for all (0) or for this open alone (1).  Does not wait. */
    int64_t (*lock)(void *context, intptr_t file, int alone, uint32_t *number);
    /* 1 if the path still leads to this file, 0 if to another one or to none. */
    int64_t (*same)(void *context, intptr_t file, const char *path, uint32_t *number);
    /* What programs wrote before reaches the disk, and reads give what the disk has. */
    int64_t (*settle)(void *context, intptr_t file, uint32_t *number);
    /* The length of a file. */
    int64_t (*length)(void *context, intptr_t file, uint32_t *number);
    /* Reads or writes some of the bytes from at on, and answers how many. */
    int64_t (*read)(void *context, intptr_t file, uint8_t *to, size_t length, uint64_t at,
                    uint32_t *number);
    int64_t (*write)(void *context, intptr_t file, const uint8_t *from, size_t length,
                     uint64_t at, uint32_t *number);
    /* Waits until everything written to the file has reached the disk. */
    int64_t (*flush)(void *context, intptr_t file, uint32_t *number);
    /* Makes a file empty. */
    int64_t (*empty)(void *context, intptr_t file, uint32_t *number);
    /* Gives a new file the owner and the rights of another. */
    int64_t (*rights)(void *context, intptr_t from, intptr_t to, uint32_t *number);
    /* Gives an open file another name, over (1) or not over (0) a file of that name. */
    int64_t (*rename)(void *context, intptr_t file, const char *from, const char *to, int over,
                      uint32_t *number);
    /* Waits until the names in the directory of a path have reached the disk. */
    int64_t (*flush_directory)(void *context, const char *path, uint32_t *number);
    /* Removes a name.  Closes a file. */
    void (*remove)(void *context, const char *path);
    void (*close)(void *context, intptr_t file);
} bulgefs_system;

/* The table of this system: POSIX or Windows, with malloc and free. */
const bulgefs_system *bulgefs_this_system(void);

/*
 * A volume file that is open.  Work on the bytes of image, journal and own with
 * any call of bulgefs.h; leave the fields as they are.
 */
typedef struct {
    uint8_t *image;
    size_t image_len;
    uint8_t *journal;
    size_t journal_len;
    uint8_t *own;                   /* own_len is 0 if the file has none of these */
    size_t own_len;
    /* From here on the layer's own. */
    const bulgefs_system *system;
    uint8_t *bytes;                 /* the whole file, as it stands on the disk   */
    size_t bytes_len;
    uint8_t *lent;                  /* image, journal and own                     */
    intptr_t file;
    int state;
} bulgefs_volume_file;

#define BULGEFS_VOLUME_LOOK        0     /* open: nothing is written               */
#define BULGEFS_VOLUME_CHANGE      1     /* open: for saves                        */

#define BULGEFS_VOLUME_MAX_PATH    4000u /* bytes of the longest path              */

/*
 * In all calls a system of NULL is bulgefs_this_system().  Paths end with a zero;
 * on Windows they are UTF-8.
 *
 * Opens a volume file: locks it, reads it, and recovers it if power failed in a
 * save.  Memory: the whole file, and image, journal and own once more.
 *
 * BULGEFS_VOLUME_CHANGE locks the file for this open alone.  On POSIX the program
 * must have the right to read the directory, because its names are flushed.
 * BULGEFS_VOLUME_LOOK shares the lock with others that look, and writes nothing,
 * so it serves for a file that is read-only; a log that waits is recovered in
 * memory only.  Nobody can open the file for saves meanwhile.
 *
 * *volume may hold anything before.  If the call fails, nothing is open, and
 * nothing need be closed.
 */
BULGEFS_CHECKED
bulgefs_volume_result bulgefs_volume_open(bulgefs_volume_file *volume, const char *path,
                                          int how, const bulgefs_system *system);

/*
 * Saves image, journal and own.  When it answers BULGEFS_VOLUME_OK they are on
 * the disk.  If nothing changed since the last save, nothing is written.
 *
 * After any other answer but BULGEFS_VOLUME_LOOK_ONLY the volume cannot be used
 * any more: only bulgefs_volume_close takes it.  The file holds what was saved
 * before or what was being saved, whole.  Open it again to see which.
 */
BULGEFS_CHECKED
bulgefs_volume_result bulgefs_volume_save(bulgefs_volume_file *volume);

/*
 * Closes a volume file, and gives its lock and memory back.  What was not saved is
 * lost.  A volume that is closed already, or whose open failed, may be closed too.
 */
void bulgefs_volume_close(bulgefs_volume_file *volume);

/*
 * Makes a volume file of an image, a journal and the program's own bytes.  All
 * lengths are multiples of 512: of the image 3 to 65,536 times, of the journal 1
 * to 131,072 times, of own 0 to 128 times.  The bytes are not looked into.
 *
 * The file is written under the path with ".bulgefs-new" behind it, flushed, and
 * renamed.  So a power cut leaves no half of a file at the path; it may leave one
 * at the longer path, which the next create or grow of this path writes over.
 */
BULGEFS_CHECKED
bulgefs_volume_result bulgefs_volume_create(const char *path,
                                            const uint8_t *image, size_t image_len,
                                            const uint8_t *journal, size_t journal_len,
                                            const uint8_t *own, size_t own_len,
                                            const bulgefs_system *system);

/*
 * Makes the journal of a volume file longer, and keeps everything in it: marks and
 * undo go on as before.  The file must be closed.  journal_len is a multiple of
 * 512, and more than the journal has (else BULGEFS_VOLUME_BAD_SIZE).
 *
 * A new file is written as by create, gets owner and rights of the old one, and
 * takes its name.  Whenever power fails, the old or the new file has the name.  The
 * same holds after an error.  If the path is a link, the link is replaced.  Windows
 * can do this from version 10 on, on NTFS; else it is BULGEFS_VOLUME_RENAME there.
 */
BULGEFS_CHECKED
bulgefs_volume_result bulgefs_volume_grow(const char *path, size_t journal_len,
                                          const bulgefs_system *system);

/*
 * Makes a volume file at path from a file with an image and a file with a journal,
 * which stay.  A journal whose length is no multiple of 512 gets zeros behind it.
 * own_len is a multiple of 512; the program's own bytes are zeros.
 */
BULGEFS_CHECKED
bulgefs_volume_result bulgefs_volume_import(const char *path, const char *image_path,
                                            const char *journal_path, size_t own_len,
                                            const bulgefs_system *system);

/*
 * Writes image and journal of a volume file, which stays, into two new files.  An
 * error leaves neither of them; a power cut may leave the image's alone.
 */
BULGEFS_CHECKED
bulgefs_volume_result bulgefs_volume_export(const char *path, const char *image_path,
                                            const char *journal_path,
                                            const bulgefs_system *system);

#ifdef __cplusplus
}
#endif

#endif
