/* The files and programs of host.h. */
#if defined(_WIN32)
#undef _WIN32_WINNT
#define _WIN32_WINNT 0x0601
#else
#define _GNU_SOURCE
#endif

#include "host.h"

#include <stdio.h>
#include <stdlib.h>
#include <string.h>

static void stop(const char *why)
{
    printf("host: %s\n", why);
    fflush(stdout);
    abort();
}

#if !defined(_WIN32)

#include <errno.h>
#include <fcntl.h>
#include <signal.h>
#include <sys/stat.h>
#include <sys/wait.h>
#include <unistd.h>

const uint32_t host_missing = ENOENT, host_denied = EACCES, host_full = EFBIG;

void host_remove(const char *name)
{
    unlink(name);
}

int host_exists(const char *name)
{
    return access(name, F_OK) == 0;
}

void host_put(const char *name, const void *bytes, size_t length)
{
    int file = open(name, O_WRONLY | O_CREAT | O_TRUNC, 0666);
    if (file < 0 || write(file, bytes, length) != (ssize_t)length || close(file) != 0)
        stop("a file cannot be written");
}

size_t host_get(const char *name, uint8_t *bytes, size_t room)
{
    int file = open(name, O_RDONLY);
    ssize_t length = file < 0 ? 0 : read(file, bytes, room);
    if (file >= 0)
        close(file);
    return length < 0 ? 0 : (size_t)length;
}

int host_set_length(const char *name, long length)
{
    return truncate(name, length) == 0;
}

int host_make_directory(const char *name)
{
    return mkdir(name, 0700) == 0;
}

int host_remove_directory(const char *name)
{
    return rmdir(name) == 0;
}

int host_read_only(const char *name, int yes)
{
    return chmod(name, yes ? 0444 : 0644) == 0;
}

int host_may_write(const char *name)
{
    return access(name, W_OK) == 0;
}

int host_renames_over(const char *from, const char *to)
{
    (void)from;
    (void)to;
    return 1;
}

void host_sleep(unsigned microseconds)
{
    usleep(microseconds);
}

void host_begin(int count, char **words)
{
    (void)count;
    (void)words;
    signal(SIGPIPE, SIG_IGN);
}

host_program host_start(const char *first, const char *second)
{
    int to[2], from[2];
    char *words[2];
    host_program p;
    pid_t child;
    words[0] = (char *)first;
    words[1] = (char *)second;
    fflush(stdout);
    if (pipe(to) != 0 || pipe(from) != 0 || (child = fork()) < 0)
        stop("no other program");
    if (child == 0) {
        close(to[1]);
        close(from[0]);
        _exit(host_other(words, to[0], from[1]));
    }
    close(to[0]);
    close(from[1]);
    p.process = child;
    p.to = to[1];
    p.from = from[0];
    return p;
}

int host_write(intptr_t end, const void *bytes, size_t length)
{
    return write((int)end, bytes, length) == (ssize_t)length;
}

int host_read(intptr_t end, void *bytes, size_t length)
{
    return read((int)end, bytes, length) == (ssize_t)length;
}

void host_shut(intptr_t end)
{
    close((int)end);
}

void host_kill(const host_program *program)
{
    kill((pid_t)program->process, SIGKILL);
}

int host_wait(const host_program *program)
{
    int status;
    if (waitpid((pid_t)program->process, &status, 0) != (pid_t)program->process)
        stop("no end of the other program");
    if (WIFSIGNALED(status))
        return WTERMSIG(status) == SIGKILL ? -1 : 97;
    return WIFEXITED(status) ? WEXITSTATUS(status) : 98;
}

#else

#include <windows.h>

/* Under wine a file that may not get longer gives ERROR_GEN_FAILURE. */
const uint32_t host_missing = ERROR_FILE_NOT_FOUND, host_denied = ERROR_ACCESS_DENIED, host_full = ERROR_GEN_FAILURE;

#define WIDE 600
typedef WCHAR wide_name[WIDE];

static const WCHAR *widen(const char *name, WCHAR *wide)
{
    if (!MultiByteToWideChar(CP_UTF8, MB_ERR_INVALID_CHARS, name, -1, wide, WIDE))
        stop("a name that is not UTF-8, or too long");
    return wide;
}

static HANDLE open_name(const char *name, DWORD access, DWORD disposition)
{
    wide_name wide;
    return CreateFileW(widen(name, wide), access, FILE_SHARE_READ | FILE_SHARE_WRITE | FILE_SHARE_DELETE, NULL,
                       disposition, FILE_ATTRIBUTE_NORMAL, NULL);
}

void host_remove(const char *name)
{
    wide_name wide;
    (void)SetFileAttributesW(widen(name, wide), FILE_ATTRIBUTE_NORMAL);
    (void)DeleteFileW(wide);
}

int host_exists(const char *name)
{
    wide_name wide;
    return GetFileAttributesW(widen(name, wide)) != INVALID_FILE_ATTRIBUTES;
}

void host_put(const char *name, const void *bytes, size_t length)
{
    HANDLE file = open_name(name, GENERIC_WRITE, CREATE_ALWAYS);
    DWORD moved = 0;
    if (file == INVALID_HANDLE_VALUE || !WriteFile(file, bytes, (DWORD)length, &moved, NULL) || moved != length
        || !CloseHandle(file))
        stop("a file cannot be written");
}

size_t host_get(const char *name, uint8_t *bytes, size_t room)
{
    HANDLE file = open_name(name, GENERIC_READ, OPEN_EXISTING);
    DWORD moved = 0;
    if (file == INVALID_HANDLE_VALUE)
        return 0;
    if (!ReadFile(file, bytes, (DWORD)room, &moved, NULL))
        moved = 0;
    CloseHandle(file);
    return moved;
}

int host_set_length(const char *name, long length)
{
    HANDLE file = open_name(name, GENERIC_WRITE, OPEN_EXISTING);
    LARGE_INTEGER at;
    int good;
    at.QuadPart = length;
    good = file != INVALID_HANDLE_VALUE && SetFilePointerEx(file, at, NULL, FILE_BEGIN) && SetEndOfFile(file);
    return file != INVALID_HANDLE_VALUE && CloseHandle(file) && good;
}

int host_make_directory(const char *name)
{
    wide_name wide;
    return CreateDirectoryW(widen(name, wide), NULL) != 0;
}

int host_remove_directory(const char *name)
{
    wide_name wide;
    return RemoveDirectoryW(widen(name, wide)) != 0;
}

int host_read_only(const char *name, int yes)
{
    wide_name wide;
    return SetFileAttributesW(widen(name, wide), yes ? FILE_ATTRIBUTE_READONLY : FILE_ATTRIBUTE_NORMAL) != 0;
}

int host_may_write(const char *name)
{
    HANDLE file = open_name(name, GENERIC_WRITE, OPEN_EXISTING);
    return file != INVALID_HANDLE_VALUE && CloseHandle(file);
}

/* FileRenameInfoEx with the flags of POSIX, as in file/bulgefs_system.c. */
int host_renames_over(const char *from, const char *to)
{
    struct {
        DWORD flags;
        HANDLE root;
        DWORD length;
        wide_name name;
    } info;
    wide_name wide;
    HANDLE old, new;
    int done;
    memset(&info, 0, sizeof info);
    host_put(from, "from", 4);
    host_put(to, "to", 2);
    info.flags = 3;
    info.length = (DWORD)sizeof(WCHAR) * GetFullPathNameW(widen(to, wide), WIDE, info.name, NULL);
    old = open_name(to, GENERIC_READ, OPEN_EXISTING);
    new = open_name(from, GENERIC_READ | DELETE, OPEN_EXISTING);
    done = SetFileInformationByHandle(new, (FILE_INFO_BY_HANDLE_CLASS)22, &info, sizeof info) != 0;
    CloseHandle(old);
    CloseHandle(new);
    host_remove(from);
    host_remove(to);
    return done;
}

void host_sleep(unsigned microseconds)
{
    Sleep(1 + microseconds / 1000);
}

static intptr_t own_end(DWORD which)
{
    return (intptr_t)GetStdHandle(which);
}

/* Another program has the word `other` first. */
void host_begin(int count, char **words)
{
    if (count < 4 || strcmp(words[1], "other") != 0)
        return;
    exit(host_other(words + 2, own_end(STD_INPUT_HANDLE), own_end(STD_OUTPUT_HANDLE)));
}

/* A pipe whose end `given` goes to the other program, and the other end does not. */
static void make_pipe(HANDLE *in, HANDLE *out, HANDLE *kept)
{
    SECURITY_ATTRIBUTES heir = { sizeof heir, NULL, TRUE };
    if (!CreatePipe(in, out, &heir, 0) || !SetHandleInformation(*kept, HANDLE_FLAG_INHERIT, 0))
        stop("no pipe");
}

/* The words stand on a command line in quotes; none has one in it. */
host_program host_start(const char *first, const char *second)
{
    WCHAR line[3 * WIDE], self[WIDE];
    wide_name one, two;
    STARTUPINFOW how;
    PROCESS_INFORMATION made;
    HANDLE in, to, from, out;
    host_program p;
    memset(&how, 0, sizeof how);
    how.cb = sizeof how;
    how.dwFlags = STARTF_USESTDHANDLES;
    make_pipe(&in, &to, &to);
    make_pipe(&from, &out, &from);
    how.hStdInput = in;
    how.hStdOutput = out;
    how.hStdError = GetStdHandle(STD_ERROR_HANDLE);
    GetModuleFileNameW(NULL, self, WIDE);
    wcscpy(line, L"real other \"");
    wcscat(line, widen(first, one));
    wcscat(line, L"\" \"");
    wcscat(line, widen(second, two));
    wcscat(line, L"\"");
    if (!CreateProcessW(self, line, NULL, NULL, TRUE, 0, NULL, NULL, &how, &made))
        stop("no other program");
    CloseHandle(in);
    CloseHandle(out);
    CloseHandle(made.hThread);
    p.process = (intptr_t)made.hProcess;
    p.to = (intptr_t)to;
    p.from = (intptr_t)from;
    return p;
}

int host_write(intptr_t end, const void *bytes, size_t length)
{
    DWORD moved = 0;
    return WriteFile((HANDLE)end, bytes, (DWORD)length, &moved, NULL) && moved == length;
}

int host_read(intptr_t end, void *bytes, size_t length)
{
    DWORD moved = 0;
    return ReadFile((HANDLE)end, bytes, (DWORD)length, &moved, NULL) && moved == length;
}

void host_shut(intptr_t end)
{
    CloseHandle((HANDLE)end);
}

#define KILLED 9009u

void host_kill(const host_program *program)
{
    TerminateProcess((HANDLE)program->process, KILLED);
}

int host_wait(const host_program *program)
{
    DWORD status = 99;
    WaitForSingleObject((HANDLE)program->process, INFINITE);
    GetExitCodeProcess((HANDLE)program->process, &status);
    CloseHandle((HANDLE)program->process);
    return status == KILLED ? -1 : (int)status;
}

#endif
