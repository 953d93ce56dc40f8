/* Frames as text messages of the server's raw mode. The bridge and the library write such messages; the bridge also
 * reads them. */
#ifndef MESSAGES_H
#define MESSAGES_H

#include <linux/can.h>
#include <stdbool.h>
#include <stdint.h>

/* A second in nanoseconds. */
#define SECOND 1000000000ull

/* A sent or received frame. A classic frame has 16 bytes, an FD frame 72. */
struct item {
    struct canfd_frame frame;
    bool is_fd;
    uint64_t moment; /* nanoseconds since 1970 */
    enum { ORIGIN_NONE, ORIGIN_SAME, ORIGIN_OTHER } origin;
    uint64_t number;        /* the frame's number on its sender's interface, if the frame has an origin */
    uint32_t message_flags; /* the flags that recvmsg returns: MSG_DONTROUTE, MSG_CONFIRM */
};

/* The size of the longest command that sends a frame. */
#define COMMAND 320

/* Writes the command that sends a frame. */
void message_of_frame(char text[COMMAND], const struct canfd_frame *frame, bool is_fd);

/* Parses a message from the server, without its < and >, into an item. Returns false if the message contains no frame.
 */
bool message_to_item(const char *text, struct item *item);

/* Returns the shortest valid length of an FD frame that holds this many bytes, 64 if none does. */
unsigned fd_length(unsigned length);

/* Reads a decimal number and moves `at` past the digits. Returns false if there are no digits. */
bool message_number(const char **at, uint64_t *number);

#endif
