/* slow_end: the first thread ends the program a second after the start. The other threads get a processor only if no
 * other program needs it, so they end late, and the program's files stay open until then. */
#define _GNU_SOURCE
#include <pthread.h>
#include <sched.h>
#include <stdlib.h>
#include <unistd.h>

static void *idle(void *nothing) {
    if (sched_setscheduler(0, SCHED_IDLE, &(struct sched_param){0})) {
        exit(1);
    }
    sleep(1000);
    return nothing;
}

int main(void) {
    pthread_t thread;
    for (int k = 0; k < 8; k++) {
        if (pthread_create(&thread, NULL, idle, NULL)) {
            return 1;
        }
    }
    sleep(1);
    _exit(0);
}
