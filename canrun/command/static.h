/* --static, for programs that do not load the library because they are linked statically or with musl, or are written
 * in Go. Their system calls on CAN and netlink sockets are passed to a supervisor through seccomp's user notification.
 * The supervisor is a process that has loaded the library. It makes each call with the library's functions, on a copy
 * of the file descriptor. The program itself runs in the process that was started. */
#ifndef STATIC_H
#define STATIC_H

#include <linux/seccomp.h>
#include <stdbool.h>

/* The range of file descriptors for the sockets, by which the system call filter recognizes the sockets. The range is
 * below the limit of select. */
#define STATIC_FIRST 960
#define STATIC_PAST 1024

/* Replaces this process with the program, with a supervisor for the program's system calls. If this fails, it prints a
 * line and returns an exit status, or returns -1 with errno set if only execv fails. */
int static_run(const char *path, char **program);

/* The main loop of the supervisor: serves this listener's calls until no process uses the listener any more. `program`
 * is a pidfd of the process that was started. */
void static_serve(int listener, int program);

/* Makes a system call for the program, and sends the reply to the listener. */
void static_call(int listener, const struct seccomp_notif *asked);

#endif
