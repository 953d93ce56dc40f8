/* All descendants of this process: see tree.h. */
#define _GNU_SOURCE
#include "tree.h"
#include "grants.h"
#include "proc.h"

#include <dirent.h>
#include <signal.h>
#include <stdbool.h>
#include <stdio.h>
#include <stdlib.h>
#include <sys/wait.h>
#include <time.h>
#include <unistd.h>

static size_t add_children(uint32_t pid, uint32_t tid, uint32_t *pids, size_t count, size_t most) {
    static char text[65536];
    proc_read(pid, tid, "children", text, sizeof text);
    for (char *at = text, *end; count < most; at = end) {
        unsigned long child = strtoul(at, &end, 10);
        if (end == at) {
            break;
        }
        pids[count++] = (uint32_t)child;
    }
    return count;
}

size_t tree_below(uint32_t pid, uint32_t *pids, size_t most) {
    size_t count = 0, at = 0;
    for (uint32_t next = pid;; next = pids[at++]) {
        char path[40];
        snprintf(path, sizeof path, "/proc/%u/task", next);
        DIR *folder = opendir(path);
        for (struct dirent *entry; folder && (entry = readdir(folder));) {
            uint32_t tid = (uint32_t)atoi(entry->d_name);
            count = tid ? add_children(next, tid, pids, count, most) : count;
        }
        if (folder) {
            closedir(folder);
        }
        if (at >= count) {
            return count;
        }
    }
}

void tree_kill(void) {
    static uint32_t pids[TREE_MOST];
    for (int round = 0; round < 5000; round++) {
        size_t count = tree_below((uint32_t)getpid(), pids, TREE_MOST);
        for (size_t i = 0; i < count; i++) {
            descendant_signal(pids[i], SIGKILL);
        }
        while (waitpid(-1, NULL, WNOHANG) > 0) {
        }
        if (!count) {
            return;
        }
        nanosleep(&(struct timespec){0, 200000}, NULL);
    }
}
