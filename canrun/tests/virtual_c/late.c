/* late MS COUNT: starts itself COUNT times, one after the other. Each child uses MS milliseconds of processor time
 * before it joins the run. */
#include <spawn.h>
#include <stdio.h>
#include <stdlib.h>
#include <sys/resource.h>
#include <sys/wait.h>

extern char **environ;

static long used(void) {
    struct rusage usage;
    getrusage(RUSAGE_SELF, &usage);
    return (usage.ru_utime.tv_sec + usage.ru_stime.tv_sec) * 1000 +
           (usage.ru_utime.tv_usec + usage.ru_stime.tv_usec) / 1000;
}

/* Runs before the constructors of all libraries, because it is in .preinit_array. */
static void begin_late(int count, char **words, char **settings) {
    (void)settings;
    while (count == 2 && used() < atoi(words[1])) {
    }
}

__attribute__((section(".preinit_array"), used)) static void (*const first)(int, char **, char **) = begin_late;

int main(int count, char **words) {
    char *late[] = {words[0], words[1], NULL};
    for (int i = 0; count == 3 && i < atoi(words[2]); i++) {
        pid_t pid;
        int status;
        if (posix_spawn(&pid, words[0], NULL, NULL, late, environ) || waitpid(pid, &status, 0) != pid || status) {
            perror(words[0]);
            return 1;
        }
    }
    return 0;
}
