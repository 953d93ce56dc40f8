/* CAN_J1939: long messages between two interfaces, many messages at once, threads, processes, and a wait for the error
 * queue as in j1939cat. The arguments are the length of a message, and the number of tries for each wait. */
#include "check.h"
#include <linux/can/j1939.h>
#include <linux/errqueue.h>
#include <linux/net_tstamp.h>
#include <pthread.h>
#include <sys/epoll.h>

enum { TESTER = 0x80, ECU = 0x90, GROUP = 0x12300, SENDERS = 4, MESSAGES = 25, LONGEST = 200000 };

static struct sockaddr_can at(const char *interface, uint8_t address) {
    struct sockaddr_can can = address_of(interface);
    can.can_addr.j1939.name = J1939_NO_NAME;
    can.can_addr.j1939.addr = address;
    can.can_addr.j1939.pgn = J1939_NO_PGN;
    return can;
}

static int node(const char *interface, uint8_t address) {
    struct sockaddr_can own = at(interface, address);
    int fd = socket(PF_CAN, SOCK_DGRAM, CAN_J1939);
    CHECK(fd >= 0 && bind(fd, (struct sockaddr *)&own, sizeof own) == 0);
    return fd;
}

static struct sockaddr_can to(uint8_t address) {
    struct sockaddr_can can = at(NULL, address);
    can.can_addr.j1939.pgn = GROUP;
    return can;
}

/* Fills in message k of a sender. The length and the bytes depend on `sender` and k. */
static size_t make(unsigned char *data, unsigned sender, unsigned k) {
    size_t length = 2 + (sender * 37 + k * 13) % 200;
    for (size_t i = 0; i < length; i++) {
        data[i] = (unsigned char)(i < 2 ? (i ? k : sender) : sender + k + i);
    }
    return length;
}

static void send_message(int fd, unsigned sender, unsigned k) {
    unsigned char data[256];
    struct sockaddr_can ecu = to(ECU);
    size_t length = make(data, sender, k);
    CHECK(sendto(fd, data, length, 0, (struct sockaddr *)&ecu, sizeof ecu) == (ssize_t)length);
}

/* Receives a message, and checks that it is the next message of its sender. */
static void get_message(int fd, unsigned *next) {
    unsigned char data[256], wanted[256];
    ssize_t length = recv(fd, data, sizeof data, 0);
    CHECK(length >= 2 && data[0] < SENDERS && data[1] == next[data[0]]++);
    CHECK((size_t)length == make(wanted, data[0], data[1]) && !memcmp(data, wanted, (size_t)length));
}

/* ---- many messages at once ---- */

static int shared;

static void *send_own(void *number) {
    unsigned sender = (unsigned)(intptr_t)number;
    int fd = node("can0", (uint8_t)(TESTER + sender));
    for (unsigned k = 0; k < MESSAGES; k++) {
        send_message(fd, sender, k);
    }
    CHECK(close(fd) == 0);
    return NULL;
}

static void *send_shared(void *number) {
    for (unsigned k = 0; k < MESSAGES; k++) {
        send_message(shared, (unsigned)(intptr_t)number, k);
    }
    return NULL;
}

static void from_threads(void *(*sends)(void *)) {
    pthread_t threads[SENDERS];
    unsigned next[SENDERS] = {0};
    int ecu = node("can1", ECU);
    shared = node("can0", TESTER);
    for (intptr_t i = 0; i < SENDERS; i++) {
        CHECK(pthread_create(&threads[i], NULL, sends, (void *)i) == 0);
    }
    for (unsigned i = 0; i < SENDERS * MESSAGES; i++) {
        get_message(ecu, next);
    }
    for (unsigned i = 0; i < SENDERS; i++) {
        CHECK(pthread_join(threads[i], NULL) == 0);
    }
    CHECK(close(ecu) == 0 && close(shared) == 0);
}

static void from_processes(void) {
    unsigned next[SENDERS] = {0};
    int ecu = node("can1", ECU), fd = node("can0", TESTER);
    for (unsigned i = 0; i < SENDERS; i++) {
        if (fork() == 0) {
            send_message(fd, i, 0);
            _exit(0);
        }
    }
    for (unsigned i = 0; i < SENDERS; i++) {
        get_message(ecu, next);
    }
    while (wait(NULL) > 0) {
    }
    CHECK(close(ecu) == 0 && close(fd) == 0);
}

/* ---- a long message, sent as j1939cat sends it ---- */

static void turn_notices_on(int fd) {
    int on = 1, stamps = SOF_TIMESTAMPING_SOFTWARE | SOF_TIMESTAMPING_TX_ACK | SOF_TIMESTAMPING_TX_SCHED;
    CHECK(setsockopt(fd, SOL_CAN_J1939, SO_J1939_ERRQUEUE, &on, sizeof on) == 1);
    CHECK(setsockopt(fd, SOL_SOCKET, SO_TIMESTAMPING, &stamps, sizeof stamps) == 0);
}

/* Reads an entry from the error queue. Returns the number of its message, or 0 if there is no entry. */
static unsigned take_notice(int fd) {
    char control[300];
    struct msghdr message = {.msg_control = control, .msg_controllen = sizeof control};
    struct sock_extended_err entry = {0};
    struct timespec stamp = {0, 0};
    if (recvmsg(fd, &message, MSG_ERRQUEUE) < 0) {
        CHECK(errno == EAGAIN);
        return 0;
    }
    for (struct cmsghdr *one = CMSG_FIRSTHDR(&message); one; one = CMSG_NXTHDR(&message, one)) {
        if (one->cmsg_level == SOL_SOCKET && one->cmsg_type == SO_TIMESTAMPING) {
            memcpy(&stamp, CMSG_DATA(one), sizeof stamp);
        } else if (one->cmsg_level == SOL_CAN_J1939 && one->cmsg_type == SCM_J1939_ERRQUEUE) {
            memcpy(&entry, CMSG_DATA(one), sizeof entry);
        }
    }
    CHECK(entry.ee_errno == ENOMSG && entry.ee_origin == SO_EE_ORIGIN_TIMESTAMPING);
    CHECK(labs(stamp.tv_sec - time(NULL)) < 60);
    return entry.ee_info + 1;
}

/* Waits until the message has been sent. */
static void await_end(int fd) {
    for (unsigned info = 0; info != SCM_TSTAMP_ACK + 1;) {
        struct pollfd polled = {fd, POLLERR, 0};
        CHECK(poll(&polled, 1, PATIENCE) == 1 && polled.revents == POLLERR);
        info = take_notice(fd);
    }
}

static void *send_long(void *length) {
    static unsigned char data[LONGEST];
    int fd = node("can0", TESTER);
    struct sockaddr_can ecu = to(ECU);
    size_t size = (size_t)(intptr_t)length, done = 0;
    turn_notices_on(fd);
    for (size_t i = 0; i < size; i++) {
        data[i] = (unsigned char)(i * 7);
    }
    while (done < size) {
        ssize_t part = sendto(fd, data + done, size - done, MSG_DONTWAIT, (struct sockaddr *)&ecu, sizeof ecu);
        CHECK(part > 0 || errno == EAGAIN);
        done += part > 0 ? (size_t)part : 0;
        if (done < size) {
            CHECK(poll(&(struct pollfd){fd, POLLERR, 0}, 1, PATIENCE) == 1);
            take_notice(fd);
        }
    }
    await_end(fd);
    CHECK(take_notice(fd) == 0 && poll(&(struct pollfd){fd, 0, 0}, 1, 0) == 0);
    CHECK(close(fd) == 0);
    return NULL;
}

static void long_message(size_t length) {
    static unsigned char data[LONGEST];
    pthread_t thread;
    int ecu = node("can1", ECU);
    CHECK(pthread_create(&thread, NULL, send_long, (void *)(intptr_t)length) == 0);
    CHECK(recv(ecu, data, sizeof data, 0) == (ssize_t)length);
    for (size_t i = 0; i < length; i++) {
        CHECK(data[i] == (unsigned char)(i * 7));
    }
    CHECK(pthread_join(thread, NULL) == 0 && close(ecu) == 0);
}

/* ---- waits that could hang ---- */

/* Sends and receives a message, waits for its entry in the error queue, and closes both sockets. */
static void wait_once(unsigned k) {
    int ecu = node(k % 2 ? "can0" : "can1", ECU), fd = node("can0", TESTER);
    unsigned next[SENDERS] = {[1] = k % 250};
    turn_notices_on(fd);
    send_message(fd, 1, k % 250);
    await_end(fd);
    get_message(ecu, next);
    CHECK(close(fd) == 0 && close(ecu) == 0);
}

/* An epoll descriptor that waits for messages also reports an entry in the error queue. */
static void epolled(void) {
    int fd = node("can0", TESTER), epoll = epoll_create1(0);
    struct epoll_event event = {.events = EPOLLIN, .data.fd = fd};
    turn_notices_on(fd);
    CHECK(epoll_ctl(epoll, EPOLL_CTL_ADD, fd, &event) == 0);
    CHECK(epoll_wait(epoll, &event, 1, 0) == 0);
    send_message(fd, 0, 0);
    CHECK(epoll_wait(epoll, &event, 1, PATIENCE) == 1 && event.events == EPOLLERR);
    while (poll(&(struct pollfd){fd, 0, 0}, 1, QUIET) == 1) {
        take_notice(fd);
    }
    CHECK(epoll_wait(epoll, &event, 1, 0) == 0 && close(epoll) == 0 && close(fd) == 0);
}

int main(int count, char **words) {
    size_t length = count > 1 ? (size_t)atoi(words[1]) : 5000;
    unsigned tries = count > 2 ? (unsigned)atoi(words[2]) : 10;
    from_threads(send_own);
    from_threads(send_shared);
    from_processes();
    long_message(length);
    epolled();
    for (unsigned k = 0; k < tries; k++) {
        wait_once(k);
    }
    return 0;
}
