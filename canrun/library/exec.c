/* Replaces the calls that start programs. If a program's file shows that the program will not load this library, a line
 * on standard error names the program, because its CAN sockets will be the kernel's. The C library still starts the
 * program. */
#define _GNU_SOURCE
#include "library.h"

#include "../command/program.h"

#include <errno.h>
#include <spawn.h>
#include <stdio.h>
#include <sys/syscall.h>

/* Prints the note for the program in `file`, if one is needed. If `is_searched` is true, the file is looked up in PATH.
 */
static void note(const char *file, bool is_searched) {
    char path[PATH_MAX], line[PATH_MAX + 192];
    int before = errno;
    bool is_found = file && (is_searched ? !program_find(file, path) : snprintf(path, PATH_MAX, "%s", file) < PATH_MAX);
    const char *obstacle = is_found ? program_bypass(path) : NULL;
    if (obstacle) {
        int length = snprintf(line, sizeof line, PROGRAM_NOTE, path, obstacle, program_cure(path));
        syscall(SYS_write, STDERR_FILENO, line, MIN((size_t)length, sizeof line - 1));
    }
    errno = before;
}

EXPORT int execve(const char *path, char *const words[], char *const environment[]) {
    note(path, false);
    return real()->execve(path, words, environment);
}

EXPORT int execv(const char *path, char *const words[]) {
    note(path, false);
    return real()->execv(path, words);
}

EXPORT int execvp(const char *file, char *const words[]) {
    note(file, true);
    return real()->execvp(file, words);
}

EXPORT int execvpe(const char *file, char *const words[], char *const environment[]) {
    note(file, true);
    return real()->execvpe(file, words, environment);
}

EXPORT int posix_spawn(pid_t *restrict pid, const char *restrict path, const posix_spawn_file_actions_t *actions,
                       const posix_spawnattr_t *restrict attributes, char *const words[restrict],
                       char *const environment[restrict]) {
    note(path, false);
    return real()->posix_spawn(pid, path, actions, attributes, words, environment);
}

EXPORT int posix_spawnp(pid_t *restrict pid, const char *restrict file, const posix_spawn_file_actions_t *actions,
                        const posix_spawnattr_t *restrict attributes, char *const words[restrict],
                        char *const environment[restrict]) {
    note(file, true);
    return real()->posix_spawnp(pid, file, actions, attributes, words, environment);
}
