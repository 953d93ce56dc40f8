/* Makes the system calls of the CAN_J1939 cases, and prints their results. */
#include "j1939.h"

#include <linux/errqueue.h>
#include <linux/netlink.h>

static void check(const char *what, bool is_done) {
    if (!is_done) {
        say(" %s %s", what, strerrorname_np(errno));
    }
}

struct sockaddr_can *way(const char *interface, uint64_t name, uint32_t group, uint8_t address) {
    struct sockaddr_can *one = at(interface);
    one->can_addr.j1939.name = name;
    one->can_addr.j1939.pgn = group;
    one->can_addr.j1939.addr = address;
    return one;
}

int j1939(void) {
    int fd = socket(PF_CAN, SOCK_DGRAM, CAN_J1939);
    check("socket", fd >= 0);
    return fd;
}

static int bound(const char *interface, uint64_t name, uint8_t address) {
    int fd = j1939();
    check("bind", bind(fd, WAY(interface, name, NO_GROUP, address)) == 0);
    return fd;
}

int node(uint8_t address) {
    return bound("can0", 0, address);
}

int node_on(const char *interface, uint8_t address) {
    return bound(interface, 0, address);
}

int named(uint64_t name, uint8_t address) {
    return bound("can0", name, address);
}

int line(void) {
    int fd = raw("can1");
    FILTER(fd, {CAN_EFF_FLAG, CAN_EFF_FLAG});
    return fd;
}

int broadcast(int fd) {
    check("broadcast", set(fd, SOL_SOCKET, SO_BROADCAST, 1) == 0);
    return fd;
}

void keeps(int fd, const struct j1939_filter *filters, size_t length) {
    DO(setsockopt(fd, SOL_CAN_J1939, SO_J1939_FILTER, filters, (socklen_t)length));
}

static const char *text_of(size_t length) {
    static char text[300000];
    for (size_t i = 0; i < length; i++) {
        text[i] = (char)(i + 1);
    }
    return text;
}

void send_flags(int fd, uint8_t address, uint32_t group, size_t length, int flags) {
    DO(sendto(fd, text_of(length), length, flags, WAY("can0", 0, group, address)));
}

void send_to(int fd, uint8_t address, uint32_t group, size_t length) {
    send_flags(fd, address, group, length, 0);
}

void send_to_name(int fd, uint64_t name, uint32_t group, size_t length) {
    DO(sendto(fd, text_of(length), length, 0, WAY("can0", name, group, ALL)));
}

void request_claims(int fd) {
    DO(sendto(fd, "\0\xEE", 3, 0, WAY("can0", 0, REQUEST, ALL)));
}

void claim(int fd, uint64_t name, uint8_t address) {
    (void)address;
    DO(sendto(fd, &name, sizeof name, 0, WAY("can0", 0, CLAIM, ALL)));
}

void other_claims(int fd, uint64_t name, uint8_t address) {
    struct can_frame frame = {.can_id = CAN_EFF_FLAG | 0x18EEFF00 | address, .len = 8};
    memcpy(frame.data, &name, sizeof name);
    put(fd, &frame);
}

static void put_packets(int fd, canid_t id, unsigned first, unsigned number) {
    for (unsigned i = first; i < first + number; i++) {
        struct can_frame frame = {.can_id = id | CAN_EFF_FLAG, .len = 8};
        memset(frame.data, (int)i, sizeof frame.data);
        put(fd, &frame);
    }
}

void packets(int fd, unsigned first, unsigned number) {
    put_packets(fd, 0x18EB8090, first, number);
}

void extended_packets(int fd, unsigned first, unsigned number) {
    put_packets(fd, 0x18C78090, first, number);
}

void take_last(int fd, int number) {
    struct can_frame frame = {0};
    struct pollfd polled = {fd, POLLIN, 0};
    int got = 0;
    while (got < number && poll(&polled, 1, 3000) > 0 && read(fd, &frame, sizeof frame) > 0) {
        got++;
    }
    say(" %d", got);
    if (got) {
        say(" %08X#", frame.can_id & CAN_EFF_MASK);
    }
    for (int i = 0; got && i < frame.len; i++) {
        say("%02X", frame.data[i]);
    }
}

/* ---- messages ---- */

static uint64_t number_of(const struct cmsghdr *one) {
    uint64_t number = 0;
    size_t length = one->cmsg_len - CMSG_LEN(0);
    memcpy(&number, CMSG_DATA(one), length < sizeof number ? length : sizeof number);
    return number;
}

static void say_controls(struct msghdr *message) {
    for (struct cmsghdr *one = CMSG_FIRSTHDR(message); one; one = CMSG_NXTHDR(message, one)) {
        if (one->cmsg_level == SOL_CAN_J1939) {
            say(" %d/%zu=%llX", one->cmsg_type, one->cmsg_len, (unsigned long long)number_of(one));
        } else {
            say(" %d.%d/%zu", one->cmsg_level, one->cmsg_type, one->cmsg_len);
        }
    }
}

/* Prints the first 16 bytes, and whether the remaining bytes are those that were sent. */
static void say_data(const unsigned char *data, size_t length) {
    bool is_text = length > 16;
    say(":");
    for (size_t i = 0; i < length && i < 16; i++) {
        say("%02X", data[i]);
    }
    for (size_t i = 0; i < length; i++) {
        is_text &= data[i] == (unsigned char)(i + 1);
    }
    say(is_text ? " as sent" : "");
}

static void say_sender(const struct sockaddr_can *from, socklen_t length) {
    char name[IF_NAMESIZE] = "none";
    if_indextoname((unsigned)from->can_ifindex, name);
    say(" %u,%s,%llX,%X,%X", length, from->can_ifindex ? name : "0", (unsigned long long)from->can_addr.j1939.name,
        from->can_addr.j1939.pgn, from->can_addr.j1939.addr);
}

void receive_into(int fd, size_t room, size_t control, size_t name) {
    static unsigned char data[300000];
    _Alignas(8) char controls[300];
    struct sockaddr_can from = {0};
    struct msghdr message = {.msg_name = &from,
                             .msg_namelen = (socklen_t)name,
                             .msg_iov = &(struct iovec){data, room},
                             .msg_iovlen = 1,
                             .msg_control = controls,
                             .msg_controllen = control};
    struct pollfd polled = {fd, POLLIN, 0};
    poll(&polled, 1, 3000);
    errno = 0;
    ssize_t length = recvmsg(fd, &message, MSG_DONTWAIT);
    result(length);
    if (length >= 0) {
        say_data(data, (size_t)length);
        say_sender(&from, message.msg_namelen);
        say_controls(&message);
        say(" %X", (unsigned)message.msg_flags);
    }
}

void receive(int fd) {
    receive_into(fd, 300000, 300, sizeof(struct sockaddr_can));
}

void receive_none(int fd) {
    struct pollfd polled = {fd, POLLIN, 0};
    say(poll(&polled, 1, quiet) ? " SOMETHING" : " nothing");
}

/* ---- the error queue ---- */

void notices(int fd, unsigned flags) {
    DO(set(fd, SOL_CAN_J1939, SO_J1939_ERRQUEUE, 1));
    check("stamping", set(fd, SOL_SOCKET, SO_TIMESTAMPING, (int)flags) == 0);
}

static void say_attributes(const char *data, size_t length) {
    struct nlattr head;
    for (size_t size; length >= sizeof head; length -= size, data += size) {
        unsigned long long number = 0;
        memcpy(&head, data, sizeof head);
        size = (size_t)NLA_ALIGN(head.nla_len);
        if (head.nla_len < sizeof head || size > length) {
            break;
        }
        memcpy(&number, data + sizeof head, (head.nla_len - sizeof head) % 9);
        say(" %d=%llX", head.nla_type, number);
    }
}

static void say_entry(const struct cmsghdr *one) {
    struct sock_extended_err entry;
    memcpy(&entry, CMSG_DATA(one), sizeof entry);
    const char *name = strerrorname_np((int)entry.ee_errno);
    if (name) {
        say(" %s", name);
    } else {
        say(" %d", (int)entry.ee_errno);
    }
    say(" %u/%u/%u/%u", entry.ee_origin, entry.ee_type, entry.ee_info, entry.ee_data);
}

void notice_into(int fd, size_t room, size_t control) {
    _Alignas(8) char controls[300], data[100];
    struct msghdr message = {
        .msg_iov = &(struct iovec){data, room}, .msg_iovlen = 1, .msg_control = controls, .msg_controllen = control};
    struct pollfd polled = {fd, 0, 0};
    poll(&polled, 1, 4000);
    errno = 0;
    ssize_t length = recvmsg(fd, &message, MSG_ERRQUEUE);
    result(length);
    for (struct cmsghdr *one = length < 0 ? NULL : CMSG_FIRSTHDR(&message); one; one = CMSG_NXTHDR(&message, one)) {
        if (one->cmsg_level == SOL_CAN_J1939 && one->cmsg_len == CMSG_LEN(sizeof(struct sock_extended_err))) {
            say_entry(one);
        } else if (one->cmsg_type == SCM_TIMESTAMPING_OPT_STATS) {
            say_attributes((char *)CMSG_DATA(one), one->cmsg_len - CMSG_LEN(0));
        } else {
            say(" %d.%d/%zu", one->cmsg_level, one->cmsg_type, one->cmsg_len);
        }
    }
    say(" %X", (unsigned)message.msg_flags);
}

void notice(int fd) {
    notice_into(fd, sizeof "data" * 20, 300);
}

void notice_none(int fd) {
    struct pollfd polled = {fd, 0, 0};
    say(poll(&polled, 1, quiet) ? " SOMETHING" : " nothing");
}
