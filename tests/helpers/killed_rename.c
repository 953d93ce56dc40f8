/* Kills a program just before it renames a file (LD_PRELOAD), as test_run_faults.py needs it. RENAME says which rename
 * that is, counted from 1. */
#include <signal.h>
#include <stdio.h>
#include <stdlib.h>
#include <sys/syscall.h>
#include <unistd.h>

int rename(const char *from, const char *to) {
    static int made;
    const char *last = getenv("RENAME");
    if (last && ++made == atoi(last))
        raise(SIGKILL);
    return (int)syscall(SYS_rename, from, to);
}
