/* orphans COUNT: starts COUNT processes. The parent of each process ends at once, and no process waits for it. */
#define _GNU_SOURCE
#include <signal.h>
#include <stdio.h>
#include <stdlib.h>
#include <unistd.h>

int main(int count, char **words) {
    signal(SIGCHLD, SIG_IGN);
    for (int i = 0; count == 2 && i < atoi(words[1]); i++) {
        if (fork() == 0) {
            if (fork() == 0) {
                usleep(10);
            }
            _exit(0);
        }
        usleep(100);
    }
    sleep(1);
    puts("over");
    return 0;
}
