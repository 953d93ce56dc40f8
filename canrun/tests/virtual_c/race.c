/* race: two threads of a node each take an identifier for a request every 10 ms, without a lock. The identifiers are
 * unique only if no thread takes one while the other thread is between its read and its increment of the counter.
 * Prints the first identifier that was given out twice. */
#define _GNU_SOURCE
#include <pthread.h>
#include <stdio.h>
#include <stdlib.h>
#include <unistd.h>

#define ROUNDS 50

static int next, seen[4 * ROUNDS];

static int take(void) {
    int mine = next;
    usleep(20); /* like writing a log file, or a send */
    next = mine + 1;
    return mine;
}

static void *ask(void *offset) {
    usleep(*(useconds_t *)offset);
    for (int k = 0; k < ROUNDS; k++) {
        usleep(10000);
        int mine = take();
        if (seen[mine]++) {
            printf("request %d was given out twice\n", mine);
            exit(1);
        }
    }
    return NULL;
}

int main(void) {
    useconds_t offsets[2] = {0, 2000};
    pthread_t threads[2];
    for (int i = 0; i < 2; i++) {
        pthread_create(&threads[i], NULL, ask, &offsets[i]);
    }
    for (int i = 0; i < 2; i++) {
        pthread_join(threads[i], NULL);
    }
    puts("all are unique");
    return 0;
}
