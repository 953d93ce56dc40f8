/* Makes the system calls of the cases, and prints their results. */
#include "probe.h"

int a, b, c, d;
char *nowhere, *volatile null;

struct sockaddr_can *at(const char *name) {
    static struct sockaddr_can all[4];
    static unsigned next;
    struct sockaddr_can *one = &all[next++ % 4];
    *one = (struct sockaddr_can){.can_family = AF_CAN, .can_ifindex = name ? (int)if_nametoindex(name) : 0};
    return one;
}

struct sockaddr_can *ids(canid_t rx, canid_t tx) {
    struct sockaddr_can *address = at("can0");
    address->can_addr.tp.rx_id = rx;
    address->can_addr.tp.tx_id = tx;
    return address;
}

/* Prints a failed call and its errno; prints nothing if the call succeeded. */
static void check(const char *what, bool is_done) {
    if (!is_done) {
        say(" %s %s", what, strerrorname_np(errno));
    }
}

static int made(int type, int protocol) {
    int fd = socket(PF_CAN, type, protocol);
    check("socket", fd >= 0);
    return fd;
}

int raw(const char *name) {
    int fd = made(SOCK_RAW, CAN_RAW);
    check("bind", bind(fd, TO(at(name))) == 0);
    return fd;
}

int bcm(const char *name) {
    int fd = made(SOCK_DGRAM, CAN_BCM);
    check("connect", connect(fd, TO(at(name))) == 0);
    return fd;
}

int isotp(void) {
    return made(SOCK_DGRAM, CAN_ISOTP);
}

void set_options(int fd, unsigned flags) {
    struct can_isotp_options options = {
        .flags = flags, .ext_address = 0xE0, .rx_ext_address = 0xE1, .txpad_content = 0xAA, .rxpad_content = 0xBB};
    check("options", setsockopt(fd, SOL_CAN_ISOTP, CAN_ISOTP_OPTS, &options, sizeof options) == 0);
}

int tp(canid_t rx, canid_t tx, unsigned flags) {
    int fd = isotp();
    if (flags) {
        set_options(fd, flags);
    }
    check("bind", bind(fd, TO(ids(rx, tx))) == 0);
    return fd;
}

int peer(void) {
    int fd = raw("can1");
    with_fd(fd);
    FILTER(fd, {TX, CAN_EFF_FLAG | CAN_SFF_MASK});
    return fd;
}

static const char *interface(int index) {
    static char name[IF_NAMESIZE];
    return index == 0 ? "all" : if_indextoname((unsigned)index, name) ? name : "none";
}

static void say_address(const struct sockaddr_can *address, socklen_t length) {
    say("/%d:%d,%s", (int)length, address->can_family, interface(address->can_ifindex));
    if (address->can_addr.tp.rx_id || address->can_addr.tp.tx_id) {
        say(",%X,%X", address->can_addr.tp.rx_id, address->can_addr.tp.tx_id);
    }
}

void length_of_name(int fd, int length) {
    struct wide address = {.can = {0}};
    socklen_t got = (socklen_t)length;
    DO(getsockname(fd, (struct sockaddr *)&address, &got));
    say_address(&address.can, got);
}

void name_of(int fd) {
    length_of_name(fd, sizeof(struct sockaddr_can));
}

void names_listed(void) {
    static const char *const all[] = {"can0", "can1", "vcan0"};
    struct if_nameindex *list = if_nameindex();
    for (size_t i = 0; i < 3; i++) {
        for (struct if_nameindex *one = list; one && one->if_index; one++) {
            if (!strcmp(one->if_name, all[i])) {
                say(" %s", all[i]);
            }
        }
    }
}

void ask(int fd, unsigned long request, const char *name) {
    struct ifreq asked = {.ifr_flags = 0};
    memcpy(asked.ifr_name, name, strnlen(name, IFNAMSIZ));
    errno = 0;
    int returned = ioctl(fd, request, &asked);
    result(returned);
    if (returned == 0 && request == SIOCGIFFLAGS) {
        say(" %X", (unsigned short)asked.ifr_flags);
    } else if (returned == 0 && request == SIOCGIFHWADDR) {
        say(" %d", asked.ifr_hwaddr.sa_family);
    } else if (returned == 0 && request == SIOCGIFMTU) {
        say(" %d", asked.ifr_ifindex);
    }
}

void ask_name(int fd, int index) {
    struct ifreq asked = {.ifr_ifindex = index};
    DO(ioctl(fd, SIOCGIFNAME, &asked));
    say(" %.16s", asked.ifr_name);
}

void put(int fd, const struct can_frame *frame) {
    check("write", write(fd, frame, sizeof *frame) == sizeof *frame);
}

void put_fd(int fd, const struct canfd_frame *frame) {
    check("write", write(fd, frame, sizeof *frame) == sizeof *frame);
}

void put_set(int fd) {
    static const canid_t all[] = {0x123,
                                  0x124,
                                  0x323,
                                  0x000,
                                  0x7FF,
                                  0x123 | CAN_RTR_FLAG,
                                  0x123 | CAN_EFF_FLAG,
                                  0x12345123 | CAN_EFF_FLAG,
                                  0x123 | CAN_EFF_FLAG | CAN_RTR_FLAG};
    for (size_t i = 0; i < sizeof all / sizeof *all; i++) {
        put(fd, EMPTY(all[i]));
    }
    put(fd, EMPTY(LAST));
}

void flood(int fd, int number) {
    for (int i = 0; i < number; i++) {
        PUT(fd, 0x123);
    }
}

void pieces_of(int fd, int pieces) {
    static struct iovec all[1025];
    struct can_frame *frame = FRAME(0x123, 7);
    for (int i = 0; i < 16; i++) {
        all[i * (pieces / 16)] = (struct iovec){(char *)frame + i, 1};
    }
    DO(writev(fd, all, pieces));
}

void several_of(int fd, unsigned number) {
    struct iovec part = {FRAME(0x123, 1), sizeof(struct can_frame)};
    struct mmsghdr all[4] = {{.msg_len = 0}};
    for (int i = 0; i < 4; i++) {
        all[i].msg_hdr = (struct msghdr){.msg_iov = &part, .msg_iovlen = 1};
    }
    DO(sendmmsg(fd, all, number, 0));
    say("/%u", all[0].msg_len);
}

char *halfway(size_t bytes) {
    char *page = mmap(NULL, 8192, PROT_READ | PROT_WRITE, MAP_PRIVATE | MAP_ANONYMOUS, -1, 0);
    mprotect(page + 4096, 4096, PROT_NONE);
    return page + 4096 - bytes;
}

void pass(int milliseconds) {
    struct timespec left = {milliseconds / 1000, milliseconds % 1000 * 1000000L};
    while (nanosleep(&left, &left) != 0 && errno == EINTR) {
    }
}

int set(int fd, int level, int option, int value) {
    return setsockopt(fd, level, option, &value, sizeof value);
}

void get(int fd, int level, int option, socklen_t length) {
    unsigned char room[100];
    socklen_t got = length;
    errno = 0;
    int returned = getsockopt(fd, level, option, room, &got);
    result(returned);
    say("/%d:", (int)got);
    for (socklen_t i = 0; returned == 0 && i < got && i < sizeof room; i++) {
        say("%02X", room[i]);
    }
}

void get_length(int fd, int level, int option, socklen_t length) {
    static char room[10000];
    DO(getsockopt(fd, level, option, room, &length));
    say("/%d", (int)length);
}

void with_fd(int fd) {
    check("fd", set(fd, SOL_CAN_RAW, CAN_RAW_FD_FRAMES, 1) == 0);
}

void error_of(int fd) {
    int error = -1;
    getsockopt(fd, SOL_SOCKET, SO_ERROR, &error, &(socklen_t){sizeof error});
    say(" so_error %s", strerrorname_np(error));
}

void filter(int fd, const struct can_filter *filters, size_t length) {
    check("filter", setsockopt(fd, SOL_CAN_RAW, CAN_RAW_FILTER, filters, (socklen_t)length) == 0);
}

void tell_to(int fd, const struct sockaddr_can *address, const struct task *task) {
    size_t length = sizeof task->head + task->head.nframes * sizeof *task->frames;
    DO(sendto(fd, task, length, 0, (const struct sockaddr *)address, address ? sizeof *address : 0));
}

void tell(int fd, const struct task *task) {
    tell_to(fd, NULL, task);
}

void tell_fd(int fd, unsigned opcode, const struct canfd_frame *frame) {
    struct {
        struct bcm_msg_head head;
        _Alignas(8) struct canfd_frame frame;
    } task = {{.opcode = opcode, .flags = CAN_FD_FRAME, .nframes = 1}, *frame};
    DO(write(fd, &task, sizeof task));
}

void long_message(int fd, size_t length) {
    static char text[66000];
    DO(write(fd, text, length));
}

void two_ends(size_t length, unsigned char block) {
    static char text[9000], got[9000];
    struct can_isotp_fc_options flow = {.bs = block};
    struct sockaddr_can *other = at("can1");
    other->can_addr.tp.rx_id = TX;
    other->can_addr.tp.tx_id = RX;
    for (size_t i = 0; i < length; i++) {
        text[i] = (char)(i * 7);
    }
    a = tp(RX, TX, 0);
    b = isotp();
    check("flow", setsockopt(b, SOL_CAN_ISOTP, CAN_ISOTP_RECV_FC, &flow, sizeof flow) == 0);
    check("bind", bind(b, TO(other)) == 0);
    DO(write(a, text, length));
    DO(read(b, got, sizeof got));
    say(" %s", memcmp(text, got, length) ? "differs" : "equal");
}

void passed(int fd) {
    int ends[2];
    union {
        struct cmsghdr head;
        char bytes[CMSG_SPACE(sizeof(int))];
    } control = {.head = {CMSG_LEN(sizeof(int)), SOL_SOCKET, SCM_RIGHTS}};
    struct msghdr header = {.msg_iov = &(struct iovec){(char[1]){0}, 1},
                            .msg_iovlen = 1,
                            .msg_control = &control,
                            .msg_controllen = sizeof control};
    memcpy(CMSG_DATA(&control.head), &fd, sizeof fd);
    check("socketpair", socketpair(AF_UNIX, SOCK_DGRAM, 0, ends) == 0);
    DO(sendmsg(ends[0], &header, 0));
    close(fd);
    DO(recvmsg(ends[1], &header, 0));
    memcpy(&d, CMSG_DATA(&control.head), sizeof d);
}

void many_sockets(int number) {
    for (int i = 0; i < number; i++) {
        d = raw("can0");
    }
    b = raw("can1");
    PUT(b, 0x123);
    take(d, 1);
}

void one_after_other(int number) {
    b = raw("can1");
    for (int i = 0; i < number; i++) {
        a = raw("can0");
        PUT(a, 0x123);
        check("close", close(a) == 0);
    }
    take(b, number);
}
