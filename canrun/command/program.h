/* Checks whether canbusd-run can replace the CAN sockets of a program. */
#ifndef PROGRAM_H
#define PROGRAM_H

#include <limits.h>
#include <stdbool.h>

/* The environment variable that is set if a supervisor makes the system calls of programs that do not load the library:
 * see static.h. */
#define STATIC_SETTING "CANBUSD_RUN_STATIC"
/* The format of a note about a program: its path, the reason, and the remedy. */
#define PROGRAM_NOTE "canbusd-run: note: %s %s, so its CAN sockets are the kernel's%s\n"

/* Finds a program as execvp does. Returns 0, or an errno. */
int program_find(const char *name, char path[PATH_MAX]);

/* Returns why this program's CAN sockets will be the kernel's, or NULL if no reason is found. */
const char *program_obstacle(const char *path);

/* Like program_obstacle, but returns only reasons that depend on the kind of program, and so hold for every user. */
const char *program_bypass(const char *path);

/* Returns whether the loader loads the library into this program. */
bool program_takes_library(const char *path);

/* Returns whether the program is dynamically linked with musl, whose loader fails to load the library. */
bool program_is_of_musl(const char *path);

/* Returns the remedy for a program that does not load the library. It is the end of a sentence, or an empty string. */
const char *program_cure(const char *path);

#endif
