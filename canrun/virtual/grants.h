/* Checks of the processes that the coordinator signals. The coordinator has opened their descriptors itself, and they
 * are its descendants. It does not trust the process IDs in the run's memory, because processes with other privileges
 * may write to that memory. */
#ifndef GRANTS_H
#define GRANTS_H

#include "run.h"

#include <stdbool.h>
#include <stdint.h>

/* Opens a pidfd of a process that is a descendant of this one. Returns -1 for any other process. */
int descendant_open(uint32_t pid);

/* Sends a signal to a process if it is a descendant of this one. */
void descendant_signal(uint32_t pid, int number);

/* Records that a process has requested the signals of its alarm. Returns false if the number is not that of an alarm,
 * or if the process is not a descendant. */
bool alarm_grant(uint32_t pid, const struct request *request);

/* Sends the signal of this alarm. Returns false if the alarm's process has not requested the signal, or has ended. */
bool alarm_signal(uint32_t place);

/* Drops the alarms of a process that has ended. */
void alarms_forget(uint32_t pid);

#endif
