/* Declarations that the source files of the preloaded library share. The library keeps no state about sockets. A CAN
 * socket is one end of a pair of Unix sockets, and its name identifies it. The name survives fork, dup, exec and
 * SCM_RIGHTS. poll, select, epoll, fcntl and close are the kernel's own. */
#ifndef LIBRARY_H
#define LIBRARY_H

#include "../shared/wire.h"
#include "protocol.h"

#include <dirent.h>
#include <ifaddrs.h>
#include <net/if.h>
#include <fcntl.h>
#include <poll.h>
#include <spawn.h>
#include <stdbool.h>
#include <stddef.h>
#include <stdio.h>
#include <sys/epoll.h>
#include <sys/ioctl.h>
#include <sys/param.h>
#include <sys/sendfile.h>
#include <sys/socket.h>
#include <sys/stat.h>
#include <sys/uio.h>
#include <unistd.h>

#define EXPORT __attribute__((visibility("default")))

/* The functions of the C library that this library replaces and also calls. */
#define REAL_FUNCTIONS(X) \
    X(socket)             \
    X(socketpair)         \
    X(bind)               \
    X(connect)            \
    X(listen)             \
    X(accept)             \
    X(accept4)            \
    X(shutdown)           \
    X(getsockname)        \
    X(getpeername)        \
    X(setsockopt)         \
    X(getsockopt)         \
    X(ioctl)              \
    X(if_nametoindex)     \
    X(if_indextoname)     \
    X(if_nameindex)       \
    X(if_freenameindex)   \
    X(getifaddrs)         \
    X(freeifaddrs)        \
    X(poll)               \
    X(ppoll)              \
    X(epoll_wait)         \
    X(epoll_pwait)        \
    X(epoll_pwait2)       \
    X(execve)             \
    X(execv)              \
    X(execvp)             \
    X(execvpe)            \
    X(posix_spawn)        \
    X(posix_spawnp)       \
    X(close)              \
    X(dup2)               \
    X(dup3)               \
    X(read)               \
    X(readv)              \
    X(recv)               \
    X(recvfrom)           \
    X(recvmsg)            \
    X(recvmmsg)           \
    X(write)              \
    X(writev)             \
    X(send)               \
    X(sendto)             \
    X(sendmsg)            \
    X(preadv2)            \
    X(pwritev2)           \
    X(splice)             \
    X(sendfile)           \
    X(fdopen)             \
    X(fileno)             \
    X(syscall)            \
    X(open)               \
    X(open64)             \
    X(openat)             \
    X(openat64)           \
    X(fopen)              \
    X(fopen64)            \
    X(stat)               \
    X(stat64)             \
    X(lstat)              \
    X(lstat64)            \
    X(fstatat)            \
    X(fstatat64)          \
    X(statx)              \
    X(access)             \
    X(faccessat)          \
    X(opendir)            \
    X(closedir)           \
    X(rewinddir)          \
    X(readdir)            \
    X(readdir64)          \
    X(sendmmsg)

struct real {
#define X(name) __typeof__(&name) name;
    REAL_FUNCTIONS(X)
#undef X
};

/* Returns the C library's own functions. They are looked up when this library is loaded, or by the first call if
 * another library calls earlier. */
const struct real *real(void);

/* This library replaces syscall(), so its own system calls use the C library's function. */
#define syscall(...) real()->syscall(__VA_ARGS__)

/* Returns the C library's dlsym, which this library replaces. */
void *(*real_dlsym(void))(void *restrict, const char *restrict);

/* Sets errno and returns -1. */
int fail(int error);

/* Sets errno and returns -1. With CANBUSD_RUN_DEBUG=1 it prints a line to standard error that names the refused call
 * and the reason. */
int refuse(const char *what, int error, const char *why);

/* Copy from or to the program's memory. Return false if the address is invalid (EFAULT), and leave errno unchanged. */
bool copy_from(void *room, const void *program, size_t length);
bool copy_to(void *program, const void *data, size_t length);

/* The maximum number of pieces (iovec entries) in a message, as in the kernel. */
#define PIECES_MOST 1024

/* Returns how many of `length` bytes fit into the pieces of a message. */
size_t room_of(const struct msghdr *message, size_t length);

/* The parts of a reply other than its error. Data that does not fit into the buffer is cut off. */
struct answer {
    int value;
    void *data;
    size_t room, length;
};

/* Sends a request and these pieces of data to the bridge of a socket, and waits for the reply. Returns 0, or -1 with
 * errno set. `what` is the name of the call, for the message about a refusal. */
int ask(int fd, const char *what, const struct wire_request *request, const struct iovec *data, size_t pieces,
        struct answer *answer);

/* Sends the request for a write that may wait for room. */
int ask_patiently(const struct socket *sock, struct wire_request *request, const struct msghdr *message,
                  struct answer *answer);

/* Sends a request together with the file descriptor `with`, without waiting for a reply. Returns an errno, or 0. */
int put_request(int fd, int with, const struct wire_request *request, const struct iovec *data, size_t pieces);

/* Reports that a request could not be sent because of this errno. Returns -1 with errno set. */
int refuse_unsent(const char *what, int error);

/* ---- stop.c: with --wait, signals end the writes that wait for room ---- */

/* Registers a write that is about to wait for its reply on this pipe. Returns NULL without --wait, or if too many
 * writes are waiting. */
struct wait *wait_begin(int fd, int reply_from);
/* Records that the request has been sent. Returns true if SIGINT, SIGTERM or SIGHUP arrived earlier. The caller must
 * then cancel the request. */
bool wait_is_over(struct wait *wait);
/* Ends the registration after the reply. Returns whether SIGINT, SIGTERM or SIGHUP arrived before the reply. */
bool wait_end(struct wait *wait);
/* Returns whether SIGINT, SIGTERM or SIGHUP has ended a wait, and no write has found room since then. */
bool waits_are_over(void);
/* Records that a write has found room. */
void waits_begin(void);

/* Sends a quick write to the bridge of a CAN_RAW socket. There are four results: the write is done; it is refused, with
 * the reason in errno; it has to wait for room; or no quick write is possible. In the last two cases the caller sends
 * the write again, with a pipe. */
enum quick { QUICK_DONE, QUICK_REFUSED, QUICK_NO_ROOM, QUICK_NONE };
enum quick ask_quickly(const struct socket *sock, const struct wire_request *request, const struct msghdr *message,
                       struct answer *answer);

/* ---- share.c: memory that a bridge shares with the programs of its socket ---- */

struct loaned {
    int fd; /* 0: no descriptor */
    uint32_t session;
    uint64_t inode;
};
struct shared {
    uint32_t users;  /* how many threads use this entry */
    uint32_t writes; /* quick writes of this process */
    char name[WIRE_NAME_ROOM];
    struct wire_memory *memory;
    struct loaned copy;
};

/* Returns the shared memory of a socket, which stays valid until share_leave is called. Returns NULL if the memory is
 * not available. */
struct shared *share_enter(const struct socket *sock);
void share_leave(struct shared *one);

/* Requests from the bridge the file descriptor of the session that it lends now. */
void share_borrow(struct shared *one, int fd);

/* Creates the shared memory of a new socket. Returns the file descriptor of the memory, or -1 with errno set. */
int share_make(const char *name);

/* ---- notes.c: notes on received datagrams ---- */

/* Finds the note of a datagram that begins with these bytes. The program has just read the datagram, or peeked at it
 * (`is_peeked`). For J1939 the function also finds the source and destination; for other protocols `way` is NULL.
 * Returns false if there are no notes. */
bool note_of(struct wire_memory *memory, int fd, bool is_peeked, const void *head, size_t length,
             struct wire_note *note, struct wire_way *way);

/* notes_are_looked_for returns whether this process looks for notes. note_plain_read records that a datagram was read
 * without looking for its note. */
bool notes_are_looked_for(void);
void note_plain_read(struct wire_notes *received);

/* Returns the timestamp of the last datagram that any process has read from the socket, or 0 before the first read. */
uint64_t last_moment(const struct wire_memory *memory, int fd);

/* ---- loan.c: in virtual time, writes through a session that the bridge lends ---- */

void loan_keep(struct loaned *copy, int fd, uint32_t session);
void loan_forget(struct loaned *copy);
/* Returns whether the bridge lends a session other than the one whose descriptor is in `copy`. */
bool loan_is_new(const struct wire_memory *memory, const struct loaned *copy);

/* Performs a write through the lent session; `at` is the index of the entry for the reply. TALK_DONE: the reply is in
 * that entry. TALK_LEFT: the bridge must handle the reply. TALK_NONE: the write cannot be performed through the
 * session. */
enum talk { TALK_DONE, TALK_LEFT, TALK_NONE };
enum talk loan_talk(struct wire_memory *memory, const struct loaned *copy, const struct wire_request *request,
                    const struct iovec *data, size_t pieces, uint32_t at);

/* Takes the socket's own error, as SO_ERROR does. Returns 0 if there is none, and leaves errno unchanged. */
int take_error(int fd);

/* Takes the error of a socket after a read that got no bytes. Returns -1 with errno set, or 0 if another call has
 * already taken the error. */
int take_shown(int fd);

/* Records that this socket may have an error that poll must report. */
void note_error_of(int fd);

/* note_queue_of records that this socket has an error queue. has_error_queue returns whether a socket has an error
 * queue. */
void note_queue_of(int fd);
bool has_error_queue(int fd);

/* Returns the poll events of a socket that has an error. `events` are the events that the kernel reported. */
uint32_t error_events(int fd, uint32_t events);

/* ---- watch.c ---- */

/* Performs ppoll if one of the sockets has an error queue. */
int watched_poll(struct pollfd *fds, nfds_t count, const struct timespec *timeout, const sigset_t *mask);

/* ---- j1939.c ---- */

/* Fills in the source address of a J1939 message. The control messages that all CAN sockets have must already be there.
 * Returns 0, or -1 with errno set. */
int j1939_describe(struct msghdr *message, size_t room, const struct wire_way *way, int index);

/* has_error returns whether the next message of a socket reports an error, which another call may already have taken.
 * drop_error removes that message. */
bool has_error(int fd);
void drop_error(int fd);

/* The function of the C library that aborts a program whose buffer is too small. */
void __chk_fail(void) __attribute__((noreturn));

/* Creates a CAN socket. */
int can_socket(int type, int protocol);

/* Starts the bridge of a socket. `end` is the bridge's end of the pair, and `memory` is the file descriptor of the
 * shared memory. Returns 0, or an errno. */
int start_bridge(int end, int memory);

/* Returns the length of the server's transmit queues, or the default length if it is unknown. */
int queue_length(void);

/* index_of_name returns the index of the interface with this name. name_of_index gets the name of the interface with
 * this index. Both return -1 with errno set if there is no such interface. */
int index_of_name(const char *name);
int name_of_index(int index, char name[IFNAMSIZ]);

#endif
