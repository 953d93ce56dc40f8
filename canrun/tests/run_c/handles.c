/* Unusual calls: functions that are found through a handle of the C library, and a netlink request in the form that
 * libsocketcan uses, whose reply must not be an error. */
#include "check.h"
#include <dlfcn.h>
#include <linux/rtnetlink.h>

static int (*other_socket)(int, int, int);
static int (*other_bind)(int, const struct sockaddr *, socklen_t);
static ssize_t (*other_write)(int, const void *, size_t);
static int (*other_poll)(struct pollfd *, nfds_t, int);

static void handle(const char *name) {
    void *library = name ? dlopen(name, RTLD_NOW) : RTLD_NEXT;
    CHECK(library);
    other_socket = (__typeof__(other_socket))dlsym(library, "socket");
    other_bind = (__typeof__(other_bind))dlsym(library, "bind");
    other_write = (__typeof__(other_write))dlsym(library, "write");
    other_poll = (__typeof__(other_poll))dlsym(library, "poll");
    CHECK(dlsym(library, "strlen") && !dlsym(library, "no_such_function"));
    struct sockaddr_can address = address_of("can0");
    struct can_frame frame = frame_of(0x123, 1);
    int fd = other_socket(PF_CAN, SOCK_RAW, CAN_RAW), reader = bound("can1");
    CHECK(fd >= 0 && other_bind(fd, (struct sockaddr *)&address, sizeof address) == 0);
    CHECK(other_write(fd, &frame, sizeof frame) == sizeof frame);
    CHECK(other_poll(&(struct pollfd){reader, POLLIN, 0}, 1, PATIENCE) == 1);
    get(reader, 0x123, 1);
    CHECK(close(fd) == 0 && close(reader) == 0);
}

static void netlink(void) {
    struct {
        struct nlmsghdr head;
        struct ifinfomsg interface;
    } question = {{sizeof question, RTM_GETLINK, NLM_F_REQUEST, 0, 0},
                  {.ifi_family = AF_PACKET, .ifi_index = (int)if_nametoindex("can0")}};
    int fd = socket(PF_NETLINK, SOCK_RAW, NETLINK_ROUTE);
    CHECK(fd >= 0);
    struct {
        struct nlmsghdr head;
        struct ifinfomsg interface;
        char attributes[2048];
    } answer;
    for (int i = 0; i < 2; i++) {
        CHECK((i ? sendto(fd, &question, sizeof question, 0, NULL, 0) : send(fd, &question, sizeof question, 0)) ==
              sizeof question);
        CHECK(recv(fd, &answer, sizeof answer, 0) == (ssize_t)answer.head.nlmsg_len);
        CHECK(answer.head.nlmsg_type == RTM_NEWLINK && answer.interface.ifi_index == question.interface.ifi_index);
    }
    FAILS(send(fd, (void *)16, sizeof question, 0), EFAULT);
    question.interface.ifi_index = (int)if_nametoindex("lo");
    CHECK(send(fd, &question, sizeof question, 0) == sizeof question);
    CHECK(close(fd) == 0);
}

int main(void) {
    handle("libc.so.6");
    handle(NULL); /* The next library after the program is canbusd-run's. */
    netlink();
    return 0;
}
