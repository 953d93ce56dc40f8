/* All descendants of this process, which is their subreaper (it becomes the parent of orphans). */
#ifndef TREE_H
#define TREE_H

#include <stddef.h>
#include <stdint.h>

#define TREE_MOST 4096

/* Lists the descendants of a process, and returns how many it listed. */
size_t tree_below(uint32_t pid, uint32_t *pids, size_t most);

/* Kills all descendants, including those that start in the meantime, and waits until they have ended. */
void tree_kill(void);

#endif
