/* Every option of linux/can/raw.h: its default, the lengths that it accepts, and the result of getsockopt. Also options
 * of SOL_SOCKET. */
#include "check.h"

static int value_of(int fd, int level, int option) {
    int value = -1;
    socklen_t length = sizeof value;
    CHECK(getsockopt(fd, level, option, &value, &length) == 0 && length == sizeof value);
    return value;
}

static void flags(int fd) {
    static const struct {
        int option, usual;
    } all[] = {{CAN_RAW_LOOPBACK, 1}, {CAN_RAW_RECV_OWN_MSGS, 0}, {CAN_RAW_FD_FRAMES, 0}, {CAN_RAW_JOIN_FILTERS, 0}};
    for (size_t i = 0; i < sizeof all / sizeof *all; i++) {
        char cut[3];
        socklen_t length = sizeof cut;
        CHECK(value_of(fd, SOL_CAN_RAW, all[i].option) == all[i].usual);
        set(fd, all[i].option, 1);
        CHECK(value_of(fd, SOL_CAN_RAW, all[i].option) == 1);
        set(fd, all[i].option, 0);
        CHECK(value_of(fd, SOL_CAN_RAW, all[i].option) == 0);
        set(fd, all[i].option, all[i].usual);
        FAILS(setsockopt(fd, SOL_CAN_RAW, all[i].option, &(char){1}, 1), EINVAL);
        CHECK(getsockopt(fd, SOL_CAN_RAW, all[i].option, cut, &length) == 0 && length == 3);
    }
}

static void filters(int fd) {
    struct can_filter some[3] = {{0x123, CAN_SFF_MASK}, {0x200, 0x700}, {0x300 | CAN_INV_FILTER, 0x700}},
                      read_back[4] = {{0, 0}};
    socklen_t length = sizeof read_back;
    CHECK(getsockopt(fd, SOL_CAN_RAW, CAN_RAW_FILTER, read_back, &length) == 0 && length == 8);
    CHECK(read_back[0].can_id == 0 && read_back[0].can_mask == 0);
    CHECK(setsockopt(fd, SOL_CAN_RAW, CAN_RAW_FILTER, some, sizeof some) == 0);
    length = sizeof read_back;
    CHECK(getsockopt(fd, SOL_CAN_RAW, CAN_RAW_FILTER, read_back, &length) == 0 && length == sizeof some);
    CHECK(!memcmp(some, read_back, sizeof some));
    length = 10;
    FAILS(getsockopt(fd, SOL_CAN_RAW, CAN_RAW_FILTER, read_back, &length), ERANGE);
    CHECK(length == sizeof some);
    FAILS(setsockopt(fd, SOL_CAN_RAW, CAN_RAW_FILTER, some, 7), EINVAL);
    struct can_filter many[CAN_RAW_FILTER_MAX + 1] = {{0, 0}}, all[CAN_RAW_FILTER_MAX];
    FAILS(setsockopt(fd, SOL_CAN_RAW, CAN_RAW_FILTER, many, sizeof many), EINVAL);
    CHECK(setsockopt(fd, SOL_CAN_RAW, CAN_RAW_FILTER, many, sizeof all) == 0);
    length = sizeof all;
    CHECK(getsockopt(fd, SOL_CAN_RAW, CAN_RAW_FILTER, all, &length) == 0 && length == sizeof all);
    CHECK(setsockopt(fd, SOL_CAN_RAW, CAN_RAW_FILTER, NULL, 0) == 0);
    length = sizeof read_back;
    CHECK(getsockopt(fd, SOL_CAN_RAW, CAN_RAW_FILTER, read_back, &length) == 0 && length == 0);
}

static void others(int fd) {
    can_err_mask_t mask = 0xFFFFFFFF;
    CHECK(value_of(fd, SOL_CAN_RAW, CAN_RAW_ERR_FILTER) == 0);
    CHECK(setsockopt(fd, SOL_CAN_RAW, CAN_RAW_ERR_FILTER, &mask, sizeof mask) == 0);
    CHECK(value_of(fd, SOL_CAN_RAW, CAN_RAW_ERR_FILTER) == CAN_ERR_MASK);
    FAILS(setsockopt(fd, SOL_CAN_RAW, 99, &mask, sizeof mask), ENOPROTOOPT);
    FAILS(getsockopt(fd, SOL_CAN_RAW, 99, &mask, &(socklen_t){4}), ENOPROTOOPT);
    FAILS(setsockopt(fd, SOL_CAN_BASE, 1, &mask, sizeof mask), EINVAL);
    FAILS(getsockopt(fd, SOL_CAN_BASE + CAN_BCM, 1, &mask, &(socklen_t){4}), EINVAL);
    CHECK(value_of(fd, SOL_SOCKET, SO_DOMAIN) == AF_CAN);
    CHECK(value_of(fd, SOL_SOCKET, SO_TYPE) == SOCK_RAW);
    CHECK(value_of(fd, SOL_SOCKET, SO_PROTOCOL) == 0); /* The kernel's CAN sockets report 0. */
    CHECK(value_of(fd, SOL_SOCKET, SO_ERROR) == 0);
    CHECK(setsockopt(fd, SOL_SOCKET, SO_RCVBUF, &(int){8192}, sizeof(int)) == 0);
    CHECK(value_of(fd, SOL_SOCKET, SO_RCVBUF) == 16384); /* socket(7): the kernel doubles it. */
}

/* An option has the same effect whether it is set before or after the bind. */
static void effects(void) {
    int writer = bound("can0"), beside = bound("can0"), reader = bound("can1");
    set(writer, CAN_RAW_LOOPBACK, 0);
    send_numbered(writer, 0x111, 1);
    get(reader, 0x111, 1);
    CHECK(!comes(beside, QUIET));
    set(writer, CAN_RAW_LOOPBACK, 1);
    send_numbered(writer, 0x111, 2);
    get(beside, 0x111, 2);
    CHECK(!comes(writer, QUIET));
    set(writer, CAN_RAW_RECV_OWN_MSGS, 1);
    send_numbered(writer, 0x111, 3);
    get(writer, 0x111, 3);
    int early = socket(PF_CAN, SOCK_RAW, CAN_RAW);
    struct sockaddr_can address = address_of("can0");
    set(early, CAN_RAW_RECV_OWN_MSGS, 1);
    CHECK(bind(early, (struct sockaddr *)&address, sizeof address) == 0);
    send_numbered(early, 0x111, 4);
    get(early, 0x111, 4);
}

int main(void) {
    int fd = bound("can0");
    flags(fd);
    filters(fd);
    others(fd);
    effects();
    return 0;
}
