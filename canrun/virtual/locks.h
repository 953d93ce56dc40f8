/* Locks and condition variables, on which threads wait for other threads. */
#ifndef LOCKS_H
#define LOCKS_H

#include "calls.h"

#include <pthread.h>

/* Salts of keys. Mutexes and condition variables have different salts, because a condition variable may get the address
 * of an earlier mutex. */
enum { OF_MUTEX = 1, OF_CONDITION, OF_SEMAPHORE, OF_LOCK, OF_END, OF_BARRIER };

/* Returns whether this program is CPython. */
bool is_python(void);

/* Waits until a key is woken or the deadline has passed. Returns 0, or ETIMEDOUT. */
int wait_for_key(uint64_t key, uint64_t deadline);

/* Locks a mutex, and gives up at the deadline. Returns the result of pthread_mutex_timedlock. */
int lock_until(pthread_mutex_t *mutex, uint64_t deadline);

#endif
