/* Every errno that net/can/af_can.c and raw.c of the kernel return. */
#include "check.h"
#include <linux/sockios.h>

static void sockets(void) {
    int ends[2];
    FAILS(socket(PF_CAN, SOCK_DGRAM, CAN_RAW), EPROTOTYPE);
    FAILS(socket(PF_CAN, SOCK_RAW, CAN_BCM), EPROTOTYPE);
    FAILS(socket(PF_CAN, SOCK_RAW, 0), EPROTONOSUPPORT);
    FAILS(socket(PF_CAN, SOCK_RAW, CAN_NPROTO), EINVAL);
    FAILS(socket(PF_CAN, SOCK_RAW, -1), EINVAL);
    FAILS(socketpair(PF_CAN, SOCK_RAW, CAN_RAW, ends), EOPNOTSUPP);
}

static void addresses(int fd) {
    struct sockaddr_can address = address_of("can0"), own;
    socklen_t length = sizeof own;
    address.can_family = AF_INET;
    FAILS(bind(fd, (struct sockaddr *)&address, sizeof address), EINVAL);
    address.can_family = AF_CAN;
    FAILS(bind(fd, (struct sockaddr *)&address, 7), EINVAL);
    address.can_ifindex = 12345;
    FAILS(bind(fd, (struct sockaddr *)&address, sizeof address), ENODEV);
    CHECK(getsockname(fd, (struct sockaddr *)&own, &length) == 0 && own.can_family == AF_CAN && own.can_ifindex == 0);
    FAILS(connect(fd, (struct sockaddr *)&address, sizeof address), EOPNOTSUPP);
    FAILS(listen(fd, 1), EOPNOTSUPP);
    FAILS(accept(fd, NULL, NULL), EOPNOTSUPP);
    FAILS(shutdown(fd, SHUT_RDWR), EOPNOTSUPP);
    FAILS(getpeername(fd, (struct sockaddr *)&own, &length), EOPNOTSUPP);
}

static void names(int fd) {
    struct ifreq request = {.ifr_name = "can7"};
    char name[IFNAMSIZ];
    FAILS(ioctl(fd, SIOCGIFINDEX, &request), ENODEV);
    request.ifr_ifindex = 12345;
    FAILS(ioctl(fd, SIOCGIFNAME, &request), ENODEV);
    errno = 0;
    CHECK(if_nametoindex("no/name") == 0 && errno == ENODEV);
    errno = 0;
    CHECK(if_indextoname(12345, name) == NULL && errno == ENXIO);
    CHECK(if_indextoname(if_nametoindex("can1"), name) == name && !strcmp(name, "can1"));
    FAILS(ioctl(fd, SIOCGSTAMP, &(struct timeval){0}), ENOENT);
    FAILS(ioctl(fd, FIONREAD, &(int){0}), ENOTTY);
}

static void writes(int fd) {
    struct can_frame frame = frame_of(0x123, 1);
    struct canfd_frame fd_frame = {.can_id = 0x123, .len = 12};
    struct sockaddr_can other = address_of("can1"), none = {.can_family = AF_CAN}, odd = {.can_family = AF_INET};
    FAILS(write(fd, &frame, sizeof frame), ENXIO); /* Not bound. */
    FAILS(sendto(fd, &frame, sizeof frame, 0, (struct sockaddr *)&none, sizeof none), ENXIO);
    none.can_ifindex = 12345;
    FAILS(sendto(fd, &frame, sizeof frame, 0, (struct sockaddr *)&none, sizeof none), ENXIO);
    FAILS(sendto(fd, &frame, sizeof frame, 0, (struct sockaddr *)&odd, sizeof odd), EINVAL);
    FAILS(sendto(fd, &frame, sizeof frame, 0, (struct sockaddr *)&other, 7), EINVAL);
    int reader = bound("can0");
    CHECK(sendto(fd, &frame, sizeof frame, 0, (struct sockaddr *)&other, sizeof other) == 16); /* This needs no bind. */
    get(reader, 0x123, 1);
    struct sockaddr_can address = address_of("can0");
    CHECK(bind(fd, (struct sockaddr *)&address, sizeof address) == 0);
    FAILS(write(fd, &frame, sizeof frame - 1), EINVAL);
    FAILS(write(fd, &frame, 0), EINVAL);
    FAILS(write(fd, &fd_frame, sizeof fd_frame), EINVAL); /* CAN_RAW_FD_FRAMES is off. */
    FAILS(writev(fd, &(struct iovec){(void *)16, 16}, 1), EFAULT);
    frame.can_dlc = 9;
    FAILS(write(fd, &frame, sizeof frame), EINVAL);
    set(fd, CAN_RAW_FD_FRAMES, 1);
    fd_frame.len = 65;
    FAILS(write(fd, &fd_frame, sizeof fd_frame), EINVAL);
    send_numbered(fd, 0x123, 2);
    get(reader, 0x123, 2);
}

/* A refused bind leaves the earlier binding in place. A bind to another interface moves the socket. */
static void binds(void) {
    struct sockaddr_can address = address_of("can1"), own;
    socklen_t length = sizeof own;
    int moved = bound("can0"), writer = bound("can0");
    address.can_ifindex = 12345;
    FAILS(bind(moved, (struct sockaddr *)&address, sizeof address), ENODEV);
    send_numbered(writer, 0x124, 1);
    get(moved, 0x124, 1);
    address = address_of("can1");
    CHECK(bind(moved, (struct sockaddr *)&address, sizeof address) == 0);
    CHECK(bind(moved, (struct sockaddr *)&address, sizeof address) == 0);
    CHECK(getsockname(moved, (struct sockaddr *)&own, &length) == 0 && own.can_ifindex == address.can_ifindex &&
          length == 8);
    send_numbered(moved, 0x124, 2);
    get(writer, 0x124, 2);
}

int main(void) {
    int fd = socket(PF_CAN, SOCK_RAW, CAN_RAW);
    CHECK(fd >= 0);
    sockets();
    addresses(fd);
    names(fd);
    writes(fd);
    binds();
    return 0;
}
