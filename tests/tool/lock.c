/* lock r|w FILE COMMAND...: holds the lock of FILE, for reading or for writing, while the command runs, and ends with its status. */
#include <fcntl.h>
#include <stdio.h>
#include <sys/file.h>
#include <sys/wait.h>
#include <unistd.h>

int main(int argc, char **argv)
{
    int status, file = argc < 4 ? -1 : open(argv[2], O_RDWR | O_CLOEXEC);
    if (file < 0 || flock(file, argv[1][0] == 'r' ? LOCK_SH : LOCK_EX) != 0) {
        perror("lock");
        return 125;
    }
    pid_t child = fork();
    if (child == 0) {
        execvp(argv[3], argv + 3);
        _exit(127);
    }
    if (child < 0 || waitpid(child, &status, 0) != child || !WIFEXITED(status))
        return 126;
    return WEXITSTATUS(status);
}
