/* A message of one byte with a descriptor. The coordinator uses it to send the run's epoll. */
#ifndef RIGHTS_H
#define RIGHTS_H

#include <sys/socket.h>

struct rights {
    char byte;
    struct iovec part;
    union {
        char room[CMSG_SPACE(sizeof(int))];
        struct cmsghdr align;
    } control;
    struct msghdr message;
};

/* Prepares a message with this descriptor. If the descriptor is -1, the message only has room for receiving a
 * descriptor. */
static inline struct msghdr *rights_message(struct rights *rights, int fd) {
    *rights = (struct rights){.part = {&rights->byte, 1}};
    rights->message = (struct msghdr){.msg_iov = &rights->part,
                                      .msg_iovlen = 1,
                                      .msg_control = &rights->control,
                                      .msg_controllen = sizeof rights->control};
    if (fd >= 0) {
        struct cmsghdr *head = CMSG_FIRSTHDR(&rights->message);
        *head = (struct cmsghdr){.cmsg_level = SOL_SOCKET, .cmsg_type = SCM_RIGHTS, .cmsg_len = CMSG_LEN(sizeof(int))};
        __builtin_memcpy(CMSG_DATA(head), &fd, sizeof fd);
    }
    return &rights->message;
}

/* Returns the descriptor that was received with a message, or -1. */
static inline int rights_descriptor(const struct rights *rights) {
    const struct cmsghdr *head = CMSG_FIRSTHDR(&rights->message);
    int fd = -1;
    if (head && head->cmsg_type == SCM_RIGHTS) {
        __builtin_memcpy(&fd, CMSG_DATA(head), sizeof fd);
    }
    return fd;
}

#endif
