/* Waits for frames, for events of a socket, and for signals. */
#include "probe.h"
#include <sys/stat.h>

/* How many milliseconds to wait for frames that must arrive, and the maximum number of frames to read. */
enum { PATIENCE = 5000, MOST = 40 };

static bool comes(int fd, short wanted, int milliseconds) {
    return poll(&(struct pollfd){fd, wanted, 0}, 1, milliseconds) > 0;
}

static void bytes(const unsigned char *first, size_t length) {
    for (size_t i = 0; i < length; i++) {
        say("%02X", first[i]);
    }
}

/* Prints a frame in candump's format. An FD frame is printed as its flags, a dot, and its bytes. */
static void show_frame(const struct canfd_frame *frame, ssize_t length) {
    const struct can_frame *classic = (const struct can_frame *)frame;
    say(frame->can_id & (CAN_EFF_FLAG | CAN_ERR_FLAG) ? "%08X" : "%03X",
        frame->can_id & ~(CAN_EFF_FLAG | CAN_RTR_FLAG));
    if (length == CANFD_MTU) {
        say("##%X.", frame->flags);
    } else if (frame->can_id & CAN_RTR_FLAG) {
        say("#R%u", frame->len);
    } else {
        say(classic->len8_dlc ? "#(%X)" : "#", classic->len8_dlc);
    }
    bytes(frame->data, frame->len > 64 ? 64 : frame->len);
}

/* Reads a frame and prints it with its flags: d for MSG_DONTROUTE, c for MSG_CONFIRM. Returns the frame's
 * identifier. */
static canid_t take_one(int fd) {
    struct canfd_frame frame = {0};
    struct msghdr header = {.msg_iov = &(struct iovec){&frame, sizeof frame}, .msg_iovlen = 1};
    errno = 0;
    ssize_t length = recvmsg(fd, &header, MSG_DONTWAIT);
    if (length != CAN_MTU && length != CANFD_MTU) {
        say(" read");
        result(length);
        return 0;
    }
    say(" ");
    show_frame(&frame, length);
    say("%s%s", header.msg_flags & MSG_DONTROUTE ? ":d" : "", header.msg_flags & MSG_CONFIRM ? ":c" : "");
    return frame.can_id;
}

void take(int fd, int expected) {
    int number = 0;
    while (number < expected + MOST && comes(fd, POLLIN, number < expected ? PATIENCE : quiet)) {
        take_one(fd);
        number++;
    }
    if (number == 0) {
        say(" -");
    }
}

/* Repeats the call until it returns `last`, or until no more messages arrive. */
static void each_to(int fd, canid_t (*one)(int), canid_t last) {
    for (int number = 0; number < MOST; number++) {
        if (!comes(fd, POLLIN, PATIENCE)) {
            say(" -");
            return;
        }
        if (one(fd) == last) {
            return;
        }
    }
}

void take_to(int fd, canid_t id) {
    each_to(fd, take_one, id);
}

void look(int fd) {
    unsigned char got[CANFD_MTU] = {0};
    if (!comes(fd, POLLIN, returned > 0 ? PATIENCE : quiet * 2)) {
        say(" -");
        return;
    }
    errno = 0;
    ssize_t length = recv(fd, got, sizeof got, MSG_DONTWAIT);
    result(length);
    size_t used = sizeof got;
    while (used > 0 && !got[used - 1]) {
        used--;
    }
    say(":");
    bytes(got, used);
}

/* Reads a message and prints it. If the message has exactly one byte, returns this byte, and otherwise 0. */
static canid_t message_one(int fd) {
    static unsigned char room[9000];
    errno = 0;
    ssize_t length = recv(fd, room, sizeof room, MSG_DONTWAIT);
    result(length);
    say(":");
    bytes(room, length > 40 ? 40 : length > 0 ? (size_t)length : 0);
    return length == 1 ? room[0] : 0;
}

void message(int fd) {
    comes(fd, POLLIN, PATIENCE) ? (void)message_one(fd) : say(" -");
}

void message_to_77(int fd) {
    each_to(fd, message_one, 0x77);
}

static canid_t change_one(int fd) {
    static const char *const names[] = {"?",         "TX_SETUP",   "TX_DELETE", "TX_READ",   "TX_SEND",
                                        "RX_SETUP",  "RX_DELETE",  "RX_READ",   "TX_STATUS", "TX_EXPIRED",
                                        "RX_STATUS", "RX_TIMEOUT", "RX_CHANGED"};
    struct task got = {.head = {.opcode = 0}};
    errno = 0;
    ssize_t length = recv(fd, &got, sizeof got, MSG_DONTWAIT);
    result(length);
    if (length < (ssize_t)sizeof got.head) {
        return 0;
    }
    say(":%s/%X/%u/%X/%u", names[got.head.opcode % 13], got.head.flags, got.head.count, got.head.can_id,
        got.head.nframes);
    for (unsigned i = 0; i < got.head.nframes && i < 4; i++) {
        say(i ? "," : "/");
        show_frame((struct canfd_frame *)&got.frames[i], CAN_MTU);
    }
    return got.head.can_id;
}

void change(int fd) {
    comes(fd, POLLIN, PATIENCE) ? (void)change_one(fd) : say(" -");
}

void changes_to_last(int fd, int writer) {
    TELL(fd, NONE, .opcode = RX_SETUP, .flags = RX_FILTER_ID, .can_id = LAST);
    PUT(writer, LAST);
    each_to(fd, change_one, LAST);
}

void glance(int fd) {
    char room[100];
    DO(recv(fd, room, sizeof room, MSG_DONTWAIT));
}

void from(int fd, int length) {
    struct wide address = {.can = {0}};
    char room[100], name[IF_NAMESIZE];
    socklen_t got = (socklen_t)length;
    DO(recvfrom(fd, room, sizeof room, MSG_DONTWAIT, (struct sockaddr *)&address, &got));
    say("/%d:%d,%s,%X,%X", (int)got, address.can.can_family,
        if_indextoname((unsigned)address.can.can_ifindex, name) ? name : "none", address.can.can_addr.tp.rx_id,
        address.can.can_addr.tp.tx_id);
}

void several_from(int fd, unsigned number, int flags) {
    struct can_frame frames[4];
    struct iovec parts[4];
    struct mmsghdr all[4] = {{.msg_len = 0}};
    for (int i = 0; i < 4; i++) {
        parts[i] = (struct iovec){&frames[i], sizeof frames[i]};
        all[i].msg_hdr = (struct msghdr){.msg_iov = &parts[i], .msg_iovlen = 1};
    }
    DO(recvmmsg(fd, all, number, flags, NULL));
    say("/%u,%u", all[0].msg_len, all[1].msg_len);
}

void controls(int fd, size_t room) {
    struct can_frame frame;
    _Alignas(8) char control[256];
    struct msghdr header = {.msg_iov = &(struct iovec){&frame, sizeof frame},
                            .msg_iovlen = 1,
                            .msg_control = control,
                            .msg_controllen = room};
    DO(recvmsg(fd, &header, MSG_DONTWAIT));
    say("/%zu%s", header.msg_controllen, header.msg_flags & MSG_CTRUNC ? ":cut" : "");
    for (struct cmsghdr *one = CMSG_FIRSTHDR(&header); one; one = CMSG_NXTHDR(&header, one)) {
        say(" %d,%d,%zu", one->cmsg_level, one->cmsg_type, (size_t)one->cmsg_len);
    }
}

static void show_events(short got) {
    static const struct {
        short event;
        const char *name;
    } all[] = {{POLLIN, "IN"},     {POLLOUT, "OUT"}, {POLLERR, "ERR"},    {POLLHUP, "HUP"},
               {POLLNVAL, "NVAL"}, {POLLPRI, "PRI"}, {POLLRDNORM, "RDN"}, {POLLWRNORM, "WRN"}};
    const char *between = " ";
    for (size_t i = 0; i < sizeof all / sizeof *all; i++) {
        if (got & all[i].event) {
            say("%s%s", between, all[i].name);
            between = "|";
        }
    }
    say(got ? "" : " nothing");
}

void until(int fd, short wanted) {
    struct pollfd one = {fd, wanted, 0};
    poll(&one, 1, PATIENCE);
    show_events(one.revents);
}

void events(int fd, short wanted) {
    struct pollfd one = {fd, wanted, 0};
    poll(&one, 1, 0);
    show_events(one.revents);
}

void selected(int fd) {
    fd_set to_read, to_write, odd;
    FD_ZERO(&to_read);
    FD_SET(fd, &to_read);
    to_write = odd = to_read;
    DO(select(fd + 1, &to_read, &to_write, &odd, &(struct timeval){1, 0}));
    say("/%d%d%d", !!FD_ISSET(fd, &to_read), !!FD_ISSET(fd, &to_write), !!FD_ISSET(fd, &odd));
}

static int watcher = -1;

void watch(int fd, unsigned wanted) {
    watcher = watcher < 0 ? epoll_create1(0) : watcher;
    DO(epoll_ctl(watcher, EPOLL_CTL_ADD, fd, &(struct epoll_event){.events = wanted}));
}

void watched(bool is_expected) {
    struct epoll_event got = {.events = 0};
    DO(epoll_wait(watcher, &got, 1, is_expected ? PATIENCE : quiet * 2));
    show_events((short)got.events);
}

static volatile sig_atomic_t number_caught;

static void on_signal(int number) {
    (void)number;
    number_caught++;
}

void signals_of(int number, int flags) {
    sigaction(number, &(struct sigaction){.sa_handler = on_signal, .sa_flags = flags}, NULL);
}

void signals(int flags) {
    signals_of(SIGALRM, flags);
}

void soon(void) {
    setitimer(ITIMER_REAL, &(struct itimerval){.it_value = {0, 50000}}, NULL);
}

void caught(void) {
    say(" %d caught", (int)number_caught);
}

static struct timespec start;

void lasts_from(void) {
    clock_gettime(CLOCK_MONOTONIC, &start);
}

void lasted(int milliseconds) {
    struct timespec now;
    clock_gettime(CLOCK_MONOTONIC, &now);
    long passed = (now.tv_sec - start.tv_sec) * 1000 + (now.tv_nsec - start.tv_nsec) / 1000000;
    say(passed > milliseconds ? " long" : " short");
}

void mode_of(int fd) {
    struct stat mode = {.st_mode = 0};
    DO(fstat(fd, &mode));
    say(" %o", mode.st_mode & S_IFMT);
}
