/* Threads whose waits the library does not see: the coordinator looks them up in /proc. */
#ifndef OUTSIDE_H
#define OUTSIDE_H

#include <stdbool.h>
#include <stdint.h>

/* Checks a thread that has had this turn during the last `looks` checks. Takes the turn back if the thread sleeps and
 * no thread of the run will wake it, unless `is_asked` reports a process that waits for the coordinator. Returns
 * whether the thread was not running. */
bool outside_watch(uint64_t turn, int looks, bool (*is_asked)(void));

/* Handles a thread that computes for a long time in this turn, or waits for another thread of its process in a busy
 * loop. Gives the turn to a thread of the same process that can continue, or that waits for Python's interpreter, so
 * that it can request the interpreter. */
void outside_share(uint64_t turn);

/* Returns whether all threads outside sleep, and none of them sleeps by a real clock. */
bool outside_sleeps(void);

/* Returns whether any thread of the run's processes runs or waits for a processor. */
bool outside_any_runs(void);

/* Returns whether a thread that is outside, or that has not begun, runs or waits for a processor. */
bool outside_runs(void);

/* Checks the threads and processes that have been created but have not begun. */
void outside_births(int looks);

/* Adds processes of the run that have not registered, such as those started by popen. */
void outside_strangers(void);

#endif
