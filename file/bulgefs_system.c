/*
 * The system calls of bulgefs_file.h, of POSIX and of Windows.  Each function is
 * one call of the system, or few, and says how it ended; nothing is decided here.
 */
#if defined(_WIN32)
#undef _WIN32_WINNT
#define _WIN32_WINNT 0x0601
#else
#define _GNU_SOURCE
#define _DARWIN_C_SOURCE
#define _FILE_OFFSET_BITS 64
#endif

#include "bulgefs_file.h"

#include <stdlib.h>
#include <string.h>

static void *get_memory(void *context, size_t size)
{
    (void)context;
    return malloc(size);
}

static void give_memory(void *context, void *memory)
{
    (void)context;
    free(memory);
}

#if !defined(_WIN32)

#include <errno.h>
#include <fcntl.h>
#include <stdio.h>
#include <sys/file.h>
#include <sys/stat.h>
#include <unistd.h>

/* The end of a call of the system: what it answered, or why it was not done. */
static int64_t ended(int64_t answer, uint32_t *number)
{
    if (answer >= 0)
        return answer;
    *number = (uint32_t)errno;
    if (errno == EINTR)
        return BULGEFS_SYSTEM_INTERRUPTED;
    return errno == EWOULDBLOCK ? BULGEFS_SYSTEM_BUSY : BULGEFS_SYSTEM_FAILED;
}

/* O_NONBLOCK, so that the open of a pipe does not wait. */
static int64_t posix_open(void *context, const char *path, int how, intptr_t *file, uint32_t *number)
{
    int flags = O_CLOEXEC | O_NONBLOCK | (how == BULGEFS_SYSTEM_LOOK ? O_RDONLY : O_RDWR);
    int descriptor;
    (void)context;
    if (how == BULGEFS_SYSTEM_MAKE)
        flags |= O_CREAT | O_NOFOLLOW;
    descriptor = open(path, flags, 0666);
    *file = descriptor;
    return ended(descriptor < 0 ? -1 : 0, number);
}

static int64_t posix_lock(void *context, intptr_t file, int alone, uint32_t *number)
{
    (void)context;
    return ended(flock((int)file, LOCK_NB | (alone ? LOCK_EX : LOCK_SH)), number);
}

static int64_t posix_same(void *context, intptr_t file, const char *path, uint32_t *number)
{
    struct stat here, there;
    (void)context;
    if (fstat((int)file, &here) != 0)
        return ended(-1, number);
    if (stat(path, &there) != 0)
        return errno == ENOENT ? 0 : ended(-1, number);
    return here.st_dev == there.st_dev && here.st_ino == there.st_ino;
}

/* fsync of macOS does not reach the disk; F_FULLFSYNC does. */
static int64_t posix_flush(void *context, intptr_t file, uint32_t *number)
{
    (void)context;
#if defined(F_FULLFSYNC)
    return ended(fcntl((int)file, F_FULLFSYNC) < 0 ? -1 : 0, number);
#else
    return ended(fdatasync((int)file), number);
#endif
}

static int64_t posix_settle(void *context, intptr_t file, uint32_t *number)
{
    int64_t answer = posix_flush(context, file, number);
#if defined(POSIX_FADV_DONTNEED)
    if (answer >= 0)
        (void)posix_fadvise((int)file, 0, 0, POSIX_FADV_DONTNEED);
#endif
    return answer;
}

static int64_t posix_length(void *context, intptr_t file, uint32_t *number)
{
    (void)context;
    return ended(lseek((int)file, 0, SEEK_END), number);
}

static int64_t posix_read(void *context, intptr_t file, uint8_t *to, size_t length, uint64_t at,
                          uint32_t *number)
{
    (void)context;
    return ended(pread((int)file, to, length, (off_t)at), number);
}

static int64_t posix_write(void *context, intptr_t file, const uint8_t *from, size_t length, uint64_t at,
                           uint32_t *number)
{
    (void)context;
    return ended(pwrite((int)file, from, length, (off_t)at), number);
}

static int64_t posix_empty(void *context, intptr_t file, uint32_t *number)
{
    (void)context;
    return ended(ftruncate((int)file, 0), number);
}

static int64_t posix_rights(void *context, intptr_t from, intptr_t to, uint32_t *number)
{
    struct stat old, new;
    (void)context;
    if (fstat((int)from, &old) != 0 || fstat((int)to, &new) != 0)
        return ended(-1, number);
    if ((old.st_uid != new.st_uid || old.st_gid != new.st_gid) && fchown((int)to, old.st_uid, old.st_gid) != 0)
        return ended(-1, number);
    return ended(fchmod((int)to, old.st_mode & 07777), number);
}

/* Programs that make the same file hold the lock of its first name, so none comes between the two calls. */
static int64_t posix_rename(void *context, intptr_t file, const char *from, const char *to, int over,
                            uint32_t *number)
{
    struct stat there;
    (void)context;
    (void)file;
    if (!over && lstat(to, &there) == 0) {
        *number = EEXIST;
        return BULGEFS_SYSTEM_EXISTS;
    }
    if (!over && errno != ENOENT)
        return ended(-1, number);
    return ended(rename(from, to), number);
}

/* Some file systems have no flush of a directory, and say EINVAL. */
static int64_t flush_open_directory(int directory, uint32_t *number)
{
    int64_t answer = ended(fsync(directory), number);
    return answer == BULGEFS_SYSTEM_FAILED && *number == EINVAL ? 0 : answer;
}

static int64_t posix_flush_directory(void *context, const char *path, uint32_t *number)
{
    char name[BULGEFS_VOLUME_MAX_PATH + 2];
    const char *slash = strrchr(path, '/');
    size_t length = slash ? (size_t)(slash - path) + 1 : 1;
    int directory;
    int64_t answer;
    (void)context;
    memcpy(name, slash ? path : ".", length);
    name[length] = 0;
    directory = open(name, O_RDONLY | O_DIRECTORY | O_CLOEXEC);
    if (directory < 0)
        return ended(-1, number);
    answer = flush_open_directory(directory, number);
    close(directory);
    return answer;
}

static void posix_remove(void *context, const char *path)
{
    (void)context;
    (void)unlink(path);
}

static void posix_close(void *context, intptr_t file)
{
    (void)context;
    (void)close((int)file);
}

static const bulgefs_system this_system = {
    NULL, get_memory, give_memory, posix_open, posix_lock, posix_same, posix_settle, posix_length, posix_read,
    posix_write, posix_flush, posix_empty, posix_rights, posix_rename, posix_flush_directory, posix_remove,
    posix_close
};

#else

#include <windows.h>

typedef WCHAR wide_path[BULGEFS_VOLUME_MAX_PATH + 64];

/* The end of a call of the system: why it was not done. */
static int64_t not_done(uint32_t *number)
{
    DWORD error = GetLastError();
    *number = error;
    if (error == ERROR_LOCK_VIOLATION || error == ERROR_SHARING_VIOLATION || error == ERROR_IO_PENDING)
        return BULGEFS_SYSTEM_BUSY;
    if (error == ERROR_ALREADY_EXISTS || error == ERROR_FILE_EXISTS)
        return BULGEFS_SYSTEM_EXISTS;
    return BULGEFS_SYSTEM_FAILED;
}

static int widen(const char *path, WCHAR *wide)
{
    return MultiByteToWideChar(CP_UTF8, MB_ERR_INVALID_CHARS, path, -1, wide, BULGEFS_VOLUME_MAX_PATH + 64);
}

/* All opens share reading, writing and deleting: locks alone keep programs apart, and a grow can replace a file. */
static HANDLE open_path(const char *path, DWORD access, DWORD disposition)
{
    wide_path wide;
    if (!widen(path, wide))
        return INVALID_HANDLE_VALUE;
    return CreateFileW(wide, access, FILE_SHARE_READ | FILE_SHARE_WRITE | FILE_SHARE_DELETE, NULL, disposition,
                       FILE_ATTRIBUTE_NORMAL, NULL);
}

static int64_t windows_open(void *context, const char *path, int how, intptr_t *file, uint32_t *number)
{
    DWORD access = GENERIC_READ;
    HANDLE handle;
    (void)context;
    if (how != BULGEFS_SYSTEM_LOOK)
        access |= GENERIC_WRITE;
    if (how == BULGEFS_SYSTEM_MAKE)
        access |= DELETE;
    handle = open_path(path, access, how == BULGEFS_SYSTEM_MAKE ? OPEN_ALWAYS : OPEN_EXISTING);
    *file = (intptr_t)handle;
    return handle == INVALID_HANDLE_VALUE ? not_done(number) : 0;
}

/* A lock of Windows keeps others from the bytes themselves, so it is one byte far behind the end of any file. */
static int64_t windows_lock(void *context, intptr_t file, int alone, uint32_t *number)
{
    OVERLAPPED place;
    DWORD flags = LOCKFILE_FAIL_IMMEDIATELY | (alone ? LOCKFILE_EXCLUSIVE_LOCK : 0);
    (void)context;
    memset(&place, 0, sizeof place);
    place.OffsetHigh = 0x40000000;
    return LockFileEx((HANDLE)file, flags, 0, 1, 0, &place) ? 0 : not_done(number);
}

static int64_t windows_same(void *context, intptr_t file, const char *path, uint32_t *number)
{
    BY_HANDLE_FILE_INFORMATION here, there;
    HANDLE handle = open_path(path, 0, OPEN_EXISTING);
    BOOL known;
    (void)context;
    if (handle == INVALID_HANDLE_VALUE)
        return GetLastError() == ERROR_FILE_NOT_FOUND ? 0 : not_done(number);
    known = GetFileInformationByHandle(handle, &there) && GetFileInformationByHandle((HANDLE)file, &here);
    if (!known) {
        int64_t answer = not_done(number);
        CloseHandle(handle);
        return answer;
    }
    CloseHandle(handle);
    return here.dwVolumeSerialNumber == there.dwVolumeSerialNumber && here.nFileIndexHigh == there.nFileIndexHigh
        && here.nFileIndexLow == there.nFileIndexLow;
}

static int64_t windows_flush(void *context, intptr_t file, uint32_t *number)
{
    (void)context;
    return FlushFileBuffers((HANDLE)file) ? 0 : not_done(number);
}

static int64_t windows_length(void *context, intptr_t file, uint32_t *number)
{
    LARGE_INTEGER length;
    (void)context;
    return GetFileSizeEx((HANDLE)file, &length) ? length.QuadPart : not_done(number);
}

static OVERLAPPED place_at(uint64_t at)
{
    OVERLAPPED place;
    memset(&place, 0, sizeof place);
    place.Offset = (DWORD)at;
    place.OffsetHigh = (DWORD)(at >> 32);
    return place;
}

/* At most 1 GiB at once; the layer asks for the rest. */
static DWORD some(size_t length)
{
    return length > 0x40000000 ? 0x40000000 : (DWORD)length;
}

static int64_t windows_read(void *context, intptr_t file, uint8_t *to, size_t length, uint64_t at,
                            uint32_t *number)
{
    OVERLAPPED place = place_at(at);
    DWORD moved = 0;
    (void)context;
    return ReadFile((HANDLE)file, to, some(length), &moved, &place) ? (int64_t)moved : not_done(number);
}

static int64_t windows_write(void *context, intptr_t file, const uint8_t *from, size_t length, uint64_t at,
                             uint32_t *number)
{
    OVERLAPPED place = place_at(at);
    DWORD moved = 0;
    (void)context;
    return WriteFile((HANDLE)file, from, some(length), &moved, &place) ? (int64_t)moved : not_done(number);
}

static int64_t windows_empty(void *context, intptr_t file, uint32_t *number)
{
    LARGE_INTEGER start;
    (void)context;
    start.QuadPart = 0;
    if (!SetFilePointerEx((HANDLE)file, start, NULL, FILE_BEGIN))
        return not_done(number);
    return SetEndOfFile((HANDLE)file) ? 0 : not_done(number);
}

/* A new file has the rights that its folder gives it. */
static int64_t windows_rights(void *context, intptr_t from, intptr_t to, uint32_t *number)
{
    (void)context;
    (void)from;
    (void)to;
    (void)number;
    return 0;
}

/* FileRenameInfoEx, its structure and its flags, which not every header has. */
#define RENAME_INFO_EX ((FILE_INFO_BY_HANDLE_CLASS)22)
#define RENAME_OVER    1u
#define RENAME_POSIX   2u
typedef struct {
    DWORD flags;
    HANDLE root;
    DWORD length;
    wide_path name;
} rename_info;

/* A file that is open keeps its name unless the rename is that of POSIX, which Windows 10 and later have. */
static int64_t replace_file(HANDLE file, const char *to, uint32_t *number)
{
    rename_info info;
    wide_path wide;
    DWORD length;
    if (!widen(to, wide))
        return not_done(number);
    memset(&info, 0, sizeof info);
    length = GetFullPathNameW(wide, BULGEFS_VOLUME_MAX_PATH + 64, info.name, NULL);
    if (length == 0 || length >= BULGEFS_VOLUME_MAX_PATH + 64)
        return not_done(number);
    info.flags = RENAME_OVER | RENAME_POSIX;
    info.length = length * (DWORD)sizeof(WCHAR);
    return SetFileInformationByHandle(file, RENAME_INFO_EX, &info, sizeof info) ? 0 : not_done(number);
}

static int64_t windows_rename(void *context, intptr_t file, const char *from, const char *to, int over,
                              uint32_t *number)
{
    wide_path old, new;
    (void)context;
    if (over)
        return replace_file((HANDLE)file, to, number);
    if (!widen(from, old) || !widen(to, new))
        return not_done(number);
    return MoveFileExW(old, new, MOVEFILE_WRITE_THROUGH) ? 0 : not_done(number);
}

/* Windows has no flush of a directory. */
static int64_t windows_flush_directory(void *context, const char *path, uint32_t *number)
{
    (void)context;
    (void)path;
    (void)number;
    return 0;
}

static void windows_remove(void *context, const char *path)
{
    wide_path wide;
    (void)context;
    if (widen(path, wide))
        (void)DeleteFileW(wide);
}

static void windows_close(void *context, intptr_t file)
{
    (void)context;
    (void)CloseHandle((HANDLE)file);
}

static const bulgefs_system this_system = {
    NULL, get_memory, give_memory, windows_open, windows_lock, windows_same, windows_flush, windows_length,
    windows_read, windows_write, windows_flush, windows_empty, windows_rights, windows_rename,
    windows_flush_directory, windows_remove, windows_close
};

#endif

const bulgefs_system *bulgefs_this_system(void)
{
    return &this_system;
}
