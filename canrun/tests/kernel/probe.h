/* SocketCAN cases for test_run_kernel.py. Each case prints one line, which is the same for the kernel and for canbusd.
 */
#ifndef PROBE_H
#define PROBE_H

#define _GNU_SOURCE
#include <errno.h>
#include <fcntl.h>
#include <linux/can.h>
#include <linux/can/bcm.h>
#include <linux/can/error.h>
#include <linux/can/isotp.h>
#include <linux/can/raw.h>
#include <linux/net_tstamp.h>
#include <linux/sockios.h>
#include <net/if.h>
#include <poll.h>
#include <signal.h>
#include <stdbool.h>
#include <stdint.h>
#include <stdio.h>
#include <stdlib.h>
#include <string.h>
#include <sys/epoll.h>
#include <sys/ioctl.h>
#include <sys/mman.h>
#include <sys/select.h>
#include <sys/socket.h>
#include <sys/time.h>
#include <sys/uio.h>
#include <sys/wait.h>
#include <time.h>
#include <unistd.h>

/* Defines a case: expressions that are evaluated in order, in a separate process, within 20 seconds. a, b, c and d are
 * descriptors for the case's sockets. can0 and can1 are on one bus, and vcan0 is on another. */
#define CASE(name, ...)                                                                        \
    static void case_##name(void) {                                                            \
        (void)(__VA_ARGS__);                                                                   \
    }                                                                                          \
    static const struct probe probe_##name __attribute__((used, no_reorder, section("probes"), \
                                                          aligned(sizeof(void *)))) = {__FILE__, #name, case_##name};

struct probe {
    const char *file, *name;
    void (*run)(void);
};

extern int a, b, c, d;
/* Pointers to memory that is not accessible. */
extern char *nowhere, *volatile null;

/* Appends to the output line of the case. */
void say(const char *format, ...) __attribute__((format(printf, 1, 2)));
/* Prints the result of a call, or its errno. */
void result(long value);
/* The value that the last call returned. */
extern long returned;
#define DO(...) (errno = 0, result((long)(__VA_ARGS__)))
/* Prints 0 if a call returned a descriptor, whatever its number is. Otherwise prints the errno. */
#define OPEN(...) (errno = 0, result((__VA_ARGS__) < 0 ? -1 : 0))
#define SETS(...) DO(setsockopt(__VA_ARGS__))

/* Returns the address of the interface with this name; NULL means all interfaces. */
struct sockaddr_can *at(const char *name);
/* Returns the address of an ISO-TP socket on can0. */
struct sockaddr_can *ids(canid_t rx, canid_t tx);
#define TO(address) (struct sockaddr *)(address), sizeof(struct sockaddr_can)

/* Functions that make sockets: CAN_RAW (bound), CAN_BCM (connected) and CAN_ISOTP. */
int raw(const char *name);
int bcm(const char *name);
int isotp(void);
/* Makes an ISO-TP socket that is bound to these identifiers, with these flags of CAN_ISOTP_OPTS. */
int tp(canid_t rx, canid_t tx, unsigned flags);
void set_options(int fd, unsigned flags);
/* The identifiers that most cases use. `peer` makes a raw socket on can1 that receives only frames with TX. */
#define RX 0x321
#define TX 0x123
int peer(void);

/* An address in a buffer that is longer than usual. The functions below print the socket's own address. */
struct wide {
    struct sockaddr_can can;
    char more[200];
};
#define ADDRESS(...) ((struct sockaddr *)&(struct wide){.can = {__VA_ARGS__}})
void name_of(int fd);
void length_of_name(int fd, int length);
void names_listed(void);
/* Calls an ioctl for an interface, and prints the result. */
void ask(int fd, unsigned long request, const char *name);
void ask_name(int fd, int index);

/* Macros for a classic frame with these bytes, an FD frame with these flags, and a frame without data. */
#define LENGTH(...) sizeof((unsigned char[]){__VA_ARGS__})
#define FRAME(id, ...) (&(struct can_frame){.can_id = (id), .len = LENGTH(__VA_ARGS__), .data = {__VA_ARGS__}})
#define FD(id, bits, ...) \
    (&(struct canfd_frame){.can_id = (id), .len = LENGTH(__VA_ARGS__), .flags = (bits), .data = {__VA_ARGS__}})
#define EMPTY(id) (&(struct can_frame){.can_id = (id)})
/* Functions and macros that write frames, and print only failures. */
void put(int fd, const struct can_frame *frame);
void put_fd(int fd, const struct canfd_frame *frame);
#define PUT(fd, id) put(fd, FRAME(id, 1))
#define SAYS(fd, ...) put(fd, FRAME(RX, __VA_ARGS__))
/* `put_set` writes frames of all kinds. The last one has the identifier LAST. */
#define LAST 0x7F1
void put_set(int fd);
void flood(int fd, int number);
void pieces_of(int fd, int pieces);
void several_of(int fd, unsigned number);
/* Returns a pointer to memory of which only this many bytes are accessible. */
char *halfway(size_t bytes);

/* How many milliseconds to wait for unwanted frames. The value is larger on a slower machine. */
extern int quiet;
/* Reads this many frames, however long each takes, and all further frames that arrive soon after. */
void take(int fd, int expected);
/* Reads frames up to the frame with this identifier. */
void take_to(int fd, canid_t id);
/* Reads the frame of the last write, and prints its bytes up to the last nonzero one. After a failed write no frame is
 * expected. */
void look(int fd);
/* Functions that read messages: from an ISO-TP socket, up to a message with the byte 0x77; or from a CAN_BCM socket, up
 * to the frame LAST, which is sent by `writer`. */
void message(int fd);
void message_to_77(int fd);
void change(int fd);
void changes_to_last(int fd, int writer);
/* Functions that read without waiting: with the address, several messages at once, or with control messages. */
void glance(int fd);
void from(int fd, int length);
void several_from(int fd, unsigned number, int flags);
void controls(int fd, size_t room);

/* `until` waits for one of these events, and then prints all events of the socket. `events` prints the present events.
 */
void until(int fd, short events);
void events(int fd, short events);
void selected(int fd);
void watch(int fd, unsigned events);
/* Checks that the watched descriptor gets an event, however long it takes, or that it gets none. */
void watched(bool is_expected);
/* Waits for this many milliseconds. To be used only in cases in which time must pass. */
void pass(int milliseconds);
/* `signals` and `signals_of` install a handler for SIGALRM, or for another signal, with these flags. `soon` sends
 * SIGALRM in 50 ms. `caught` prints how many signals arrived. */
void signals(int flags);
void signals_of(int number, int flags);
void soon(void);
void caught(void);
/* `lasted` prints whether more than this many milliseconds have passed since `lasts_from` was called. */
void lasts_from(void);
void lasted(int milliseconds);

/* Functions that set socket options, and functions that print them. */
int set(int fd, int level, int option, int value);
void get(int fd, int level, int option, socklen_t length);
void get_length(int fd, int level, int option, socklen_t length);
void with_fd(int fd);
void error_of(int fd);
#define FILTER(fd, ...) filter(fd, (struct can_filter[]){__VA_ARGS__}, sizeof((struct can_filter[]){__VA_ARGS__}))
void filter(int fd, const struct can_filter *filters, size_t length);

/* A message to the broadcast manager. The arguments of TELL are the frames, followed by the fields of the head. */
struct task {
    struct bcm_msg_head head;
    _Alignas(8) struct can_frame frames[4];
};
#define NONE \
    { 0 }
#define ONE(id, ...)                                                        \
    {                                                                       \
        .can_id = (id), .len = LENGTH(__VA_ARGS__), .data = { __VA_ARGS__ } \
    }
#define TWO(id, byte, other, its_byte) ONE(id, byte), ONE(other, its_byte)
#define TELL(fd, frames, ...) tell(fd, &(struct task){{__VA_ARGS__}, {frames}})
void tell(int fd, const struct task *task);
void tell_to(int fd, const struct sockaddr_can *address, const struct task *task);
void tell_fd(int fd, unsigned opcode, const struct canfd_frame *frame);

/* Functions that send an ISO-TP message of this length. `two_ends` sends it from can0 to can1 with this block size. */
void long_message(int fd, size_t length);
void two_ends(size_t length, unsigned char block);

/* Evaluates an expression in a separate process, which starts after this many milliseconds. */
#define BESIDE(milliseconds, ...) (fork() == 0 ? pass(milliseconds), (__VA_ARGS__), _exit(0) : (void)0)
/* Passes a socket through a pair of Unix sockets. The received copy is d. */
void passed(int fd);
void many_sockets(int number);
void one_after_other(int number);
void mode_of(int fd);

#endif
