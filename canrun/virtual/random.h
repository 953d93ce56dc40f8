/* Random bytes for a program in the run. */
#ifndef RANDOM_H
#define RANDOM_H

#include <sys/types.h>
#include <sys/uio.h>

/* Called after this thread has got its slot. */
void start_random(void);

/* Called after a file that may be /dev/urandom was opened. */
void random_opened(int fd, const char *path);

/* Called after a read of this many bytes. If the bytes are random bytes, the run's random bytes replace them. */
void random_read(int fd, const struct iovec *parts, int count, ssize_t length);

#endif
