/* A program of a run that gives up its rights, and then writes forged data into the run's memory:
 *
 *   forger alarm PID    writes alarms that are due and would kill the process PID
 *   forger used         writes a number of used slots that is larger than the maximum */
#define _GNU_SOURCE
#include "../../virtual/run.h"

#include <fcntl.h>
#include <signal.h>
#include <stdio.h>
#include <stdlib.h>
#include <string.h>
#include <sys/mman.h>
#include <unistd.h>

#define NO_USER 65534

static struct run *map_run(void) {
    int fd = open(getenv(RUN_SETTING), O_RDWR);
    struct run *run = mmap(NULL, sizeof *run, PROT_READ | PROT_WRITE, MAP_SHARED, fd, 0);
    return fd < 0 || run == MAP_FAILED ? NULL : run;
}

static void forge_alarms(struct run *run, uint32_t pid) {
    for (int i = 0; i < 4; i++) {
        struct alarm *alarm = &run->alarms[ALARMS - 1 - i];
        alarm->tid = i & 1 ? pid : 0;
        alarm->number = SIGKILL;
        alarm->id = i & 2 ? INTERVAL_TIMER : 2;
        alarm->period = 0;
        alarm->deadline = 0;
        alarm->pid = pid;
    }
}

int main(int count, char **words) {
    struct run *run = map_run();
    if (!run || count < 2 || (geteuid() == 0 && setuid(NO_USER))) {
        return 1;
    }
    if (!strcmp(words[1], "used")) {
        run->used = UINT32_MAX;
    } else {
        forge_alarms(run, (uint32_t)atoi(words[2]));
    }
    sleep(1);
    puts("written");
    return 0;
}
