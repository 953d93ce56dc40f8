/* Sockets: waits for data, waits for buffer room, and timeouts. */
#include "waits.h"

#include <arpa/inet.h>
#include <netinet/in.h>
#include <poll.h>
#include <pthread.h>
#include <sys/socket.h>
#include <sys/time.h>
#include <sys/uio.h>
#include <sys/un.h>
#include <sys/wait.h>

/* A socket timeout in milliseconds. The kernel stores it in ticks, and 40 ms are a whole number of ticks at each usual
 * tick rate. */
#define TIMEOUT 40

static char data[400000];

static void pair(int ends[2], int type) {
    CHECK(!socketpair(AF_UNIX, type, 0, ends));
}

static void timeout_of(int fd, int option, int ms) {
    struct timeval t = {ms / 1000, ms % 1000 * 1000};
    CHECK(!setsockopt(fd, SOL_SOCKET, option, &t, sizeof t));
}

static void sockets_recv(void) {
    int ends[2];
    pair(ends, SOCK_STREAM);
    begin();
    later(SOON, write_byte, (void *)(intptr_t)ends[1]);
    end(recv(ends[0], data, 10, 0));
}

static void sockets_recv_timeout(void) {
    int ends[2];
    pair(ends, SOCK_STREAM);
    timeout_of(ends[0], SO_RCVTIMEO, TIMEOUT);
    begin();
    end(recv(ends[0], data, 10, 0));
}

static void sockets_read_timeout(void) {
    int ends[2];
    pair(ends, SOCK_DGRAM);
    timeout_of(ends[0], SO_RCVTIMEO, TIMEOUT);
    begin();
    end(read(ends[0], data, 10));
}

static void sockets_recv_dontwait(void) {
    int ends[2];
    pair(ends, SOCK_STREAM);
    begin();
    end(recv(ends[0], data, 10, MSG_DONTWAIT));
}

static void sockets_recv_peek(void) {
    int ends[2];
    pair(ends, SOCK_STREAM);
    begin();
    later(SOON, write_byte, (void *)(intptr_t)ends[1]);
    int first = (int)recv(ends[0], data, 10, MSG_PEEK);
    end(10 * first + recv(ends[0], data, 10, 0));
}

static void *write_parts(void *fd) {
    for (int i = 0; i < 2; i++) {
        usleep(SOON * 500);
        CHECK(write((int)(intptr_t)fd, "abc", 3) == 3);
    }
    return NULL;
}

static void sockets_waitall(void) {
    int ends[2];
    pthread_t thread;
    pair(ends, SOCK_STREAM);
    begin();
    pthread_create(&thread, NULL, write_parts, (void *)(intptr_t)ends[1]);
    end(recv(ends[0], data, 6, MSG_WAITALL));
    note("%.6s", data);
}

static void sockets_waitall_timeout(void) {
    int ends[2];
    pair(ends, SOCK_STREAM);
    timeout_of(ends[0], SO_RCVTIMEO, TIMEOUT);
    write_byte((void *)(intptr_t)ends[1]);
    begin();
    end(recv(ends[0], data, 6, MSG_WAITALL));
}

static void sockets_waitall_message(void) {
    int ends[2];
    pthread_t thread;
    struct iovec parts[2] = {{data, 4}, {data + 4, 2}};
    struct msghdr message = {.msg_iov = parts, .msg_iovlen = 2};
    pair(ends, SOCK_STREAM);
    begin();
    pthread_create(&thread, NULL, write_parts, (void *)(intptr_t)ends[1]);
    end(recvmsg(ends[0], &message, MSG_WAITALL));
    note("%.6s", data);
}

static void sockets_waitall_end(void) {
    int ends[2];
    pair(ends, SOCK_STREAM);
    write_byte((void *)(intptr_t)ends[1]);
    begin();
    later(SOON, close_it, (void *)(intptr_t)ends[1]);
    end(recv(ends[0], data, 6, MSG_WAITALL));
}

static void sockets_recvmmsg(void) {
    int ends[2];
    struct iovec parts[2] = {{data, 10}, {data + 10, 10}};
    struct mmsghdr messages[2] = {{{.msg_iov = &parts[0], .msg_iovlen = 1}, 0},
                                  {{.msg_iov = &parts[1], .msg_iovlen = 1}, 0}};
    pair(ends, SOCK_DGRAM);
    begin();
    later(SOON, write_byte, (void *)(intptr_t)ends[1]);
    end(recvmmsg(ends[0], messages, 2, MSG_WAITFORONE, NULL));
}

static void sockets_send_timeout(void) {
    int ends[2];
    pair(ends, SOCK_STREAM);
    while (send(ends[0], data, sizeof data, MSG_DONTWAIT) > 0) {
    }
    timeout_of(ends[0], SO_SNDTIMEO, TIMEOUT);
    begin();
    end(send(ends[0], data, 60000, 0));
}

static void *read_all(void *fd) {
    usleep(SOON * 1000);
    for (long length = 0; length < (long)sizeof data;) {
        static char other[65536];
        length += read((int)(intptr_t)fd, other, sizeof other);
    }
    return NULL;
}

static void sockets_send_much(void) {
    int ends[2];
    pthread_t thread;
    pair(ends, SOCK_STREAM);
    setsockopt(ends[0], SOL_SOCKET, SO_SNDBUF, &(int){20000}, sizeof(int));
    begin();
    pthread_create(&thread, NULL, read_all, (void *)(intptr_t)ends[1]);
    end(send(ends[0], data, sizeof data, 0));
}

static void sockets_sendmsg_much(void) {
    int ends[2];
    pthread_t thread;
    struct iovec parts[2] = {{data, 100000}, {data + 100000, sizeof data - 100000}};
    struct msghdr message = {.msg_iov = parts, .msg_iovlen = 2};
    pair(ends, SOCK_STREAM);
    setsockopt(ends[0], SOL_SOCKET, SO_SNDBUF, &(int){20000}, sizeof(int));
    begin();
    pthread_create(&thread, NULL, read_all, (void *)(intptr_t)ends[1]);
    end(sendmsg(ends[0], &message, 0));
}

static void sockets_write_much(void) {
    int ends[2];
    pthread_t thread;
    pair(ends, SOCK_STREAM);
    setsockopt(ends[0], SOL_SOCKET, SO_SNDBUF, &(int){20000}, sizeof(int));
    begin();
    pthread_create(&thread, NULL, read_all, (void *)(intptr_t)ends[1]);
    end(write(ends[0], data, sizeof data));
}

static void read_what_is_there(void *fd) {
    while (recv((int)(intptr_t)fd, data, 100, MSG_DONTWAIT) > 0) {
    }
}

static void sockets_dgram_full(void) {
    int ends[2];
    pair(ends, SOCK_DGRAM);
    while (send(ends[0], "x", 1, MSG_DONTWAIT) > 0) {
    }
    begin();
    later(SOON, read_what_is_there, (void *)(intptr_t)ends[1]);
    end(send(ends[0], "x", 1, 0));
}

static int listen_at(struct sockaddr_un *name, int backlog) {
    int fd = socket(AF_UNIX, SOCK_STREAM, 0);
    *name = (struct sockaddr_un){.sun_family = AF_UNIX};
    snprintf(name->sun_path + 1, 30, "waits/%d", getpid());
    CHECK(!bind(fd, (struct sockaddr *)name, sizeof *name) && !listen(fd, backlog));
    return fd;
}

static int client_of(const struct sockaddr_un *name) {
    int fd = socket(AF_UNIX, SOCK_STREAM, 0);
    CHECK(!connect(fd, (const struct sockaddr *)name, sizeof *name));
    return fd;
}

static void connect_late(void *name) {
    client_of(name);
}

static void sockets_accept(void) {
    struct sockaddr_un name;
    int fd = listen_at(&name, 5);
    begin();
    later(SOON, connect_late, &name);
    end(accept(fd, NULL, NULL) >= 0);
}

static void sockets_accept_timeout(void) {
    struct sockaddr_un name;
    int fd = listen_at(&name, 5);
    timeout_of(fd, SO_RCVTIMEO, TIMEOUT);
    begin();
    end(accept4(fd, NULL, NULL, SOCK_CLOEXEC));
}

static void accept_late(void *fd) {
    CHECK(accept((int)(intptr_t)fd, NULL, NULL) >= 0);
}

/* Connects to a listener whose queue is full. */
static void sockets_connect_full(void) {
    struct sockaddr_un name;
    int fd = listen_at(&name, 0), client = socket(AF_UNIX, SOCK_STREAM, 0);
    client_of(&name);
    begin();
    later(SOON, accept_late, (void *)(intptr_t)fd);
    end(connect(client, (struct sockaddr *)&name, sizeof name));
}

static void sockets_connect_timeout(void) {
    struct sockaddr_un name;
    int client = socket(AF_UNIX, SOCK_STREAM, 0);
    listen_at(&name, 0);
    client_of(&name);
    timeout_of(client, SO_SNDTIMEO, TIMEOUT);
    begin();
    end(connect(client, (struct sockaddr *)&name, sizeof name));
}

static int inet(int type, struct sockaddr_in *address) {
    socklen_t length = sizeof *address;
    int fd = socket(AF_INET, type, 0);
    *address = (struct sockaddr_in){.sin_family = AF_INET, .sin_addr.s_addr = htonl(INADDR_LOOPBACK)};
    CHECK(!bind(fd, (struct sockaddr *)address, length) && !getsockname(fd, (struct sockaddr *)address, &length));
    return fd;
}

static void sockets_tcp(void) {
    struct sockaddr_in address;
    int fd = inet(SOCK_STREAM, &address), client = socket(AF_INET, SOCK_STREAM, 0);
    CHECK(!listen(fd, 5) && !connect(client, (struct sockaddr *)&address, sizeof address));
    int server = accept(fd, NULL, NULL);
    begin();
    later(SOON, write_byte, (void *)(intptr_t)server);
    end(recv(client, data, 10, 0));
}

static void sockets_tcp_refused(void) {
    struct sockaddr_in address;
    int fd = inet(SOCK_STREAM, &address), client = socket(AF_INET, SOCK_STREAM, 0);
    close(fd);
    begin();
    end(connect(client, (struct sockaddr *)&address, sizeof address));
}

static void sockets_udp(void) {
    struct sockaddr_in address, other;
    int fd = inet(SOCK_DGRAM, &address), client = inet(SOCK_DGRAM, &other), status;
    begin();
    pid_t pid = fork();
    if (pid == 0) {
        socklen_t length = sizeof other;
        CHECK(recvfrom(fd, data, 10, 0, (struct sockaddr *)&other, &length) == 4);
        usleep(SOON * 1000);
        _exit((int)sendto(fd, "pong!", 5, 0, (struct sockaddr *)&other, length));
    }
    sendto(client, "ping", 4, 0, (struct sockaddr *)&address, sizeof address);
    end(recv(client, data, 10, 0));
    waitpid(pid, &status, 0);
}

/* The client's socket has no address until it sends. */
static void sockets_udp_connected(void) {
    struct sockaddr_in address, other;
    socklen_t length = sizeof other;
    int fd = inet(SOCK_DGRAM, &address), client = socket(AF_INET, SOCK_DGRAM, 0);
    timeout_of(client, SO_RCVTIMEO, TIMEOUT);
    CHECK(!connect(client, (struct sockaddr *)&address, sizeof address) && send(client, "x", 1, 0) == 1);
    CHECK(recvfrom(fd, data, 10, 0, (struct sockaddr *)&other, &length) == 1);
    CHECK(sendto(fd, "xy", 2, 0, (struct sockaddr *)&other, length) == 2);
    begin();
    int first = (int)recv(client, data, 10, 0);
    end(recv(client, data, 10, 0));
    note("%d", first);
}

static void shut_down(void *fd) {
    shutdown((int)(intptr_t)fd, SHUT_RDWR);
}

static void sockets_shutdown(void) {
    int ends[2];
    pair(ends, SOCK_STREAM);
    begin();
    later(SOON, shut_down, (void *)(intptr_t)ends[0]);
    end(recv(ends[0], data, 10, 0));
}

static void sockets_seqpacket(void) {
    int ends[2];
    pair(ends, SOCK_SEQPACKET);
    begin();
    later(SOON, write_byte, (void *)(intptr_t)ends[1]);
    end(recv(ends[0], data, 10, 0));
}

static void sockets_sendmmsg(void) {
    int ends[2];
    struct iovec parts[2] = {{data, 10}, {data + 10, 10}};
    struct mmsghdr messages[2] = {{{.msg_iov = &parts[0], .msg_iovlen = 1}, 0},
                                  {{.msg_iov = &parts[1], .msg_iovlen = 1}, 0}};
    pair(ends, SOCK_DGRAM);
    begin();
    end(sendmmsg(ends[0], messages, 2, 0));
    note("%u", messages[1].msg_len);
}

const struct wait sockets[] = {
    {"sockets_recv", SOON, sockets_recv},
    {"sockets_recv_timeout", TIMEOUT, sockets_recv_timeout},
    {"sockets_read_timeout", TIMEOUT, sockets_read_timeout},
    {"sockets_recv_dontwait", 0, sockets_recv_dontwait},
    {"sockets_recv_peek", SOON, sockets_recv_peek},
    {"sockets_waitall", SOON, sockets_waitall},
    {"sockets_waitall_timeout", TIMEOUT, sockets_waitall_timeout},
    {"sockets_waitall_message", SOON, sockets_waitall_message},
    {"sockets_waitall_end", SOON, sockets_waitall_end},
    {"sockets_recvmmsg", SOON, sockets_recvmmsg},
    {"sockets_send_timeout", TIMEOUT, sockets_send_timeout},
    {"sockets_send_much", SOON, sockets_send_much},
    {"sockets_sendmsg_much", SOON, sockets_sendmsg_much},
    {"sockets_write_much", SOON, sockets_write_much},
    {"sockets_dgram_full", SOON, sockets_dgram_full},
    {"sockets_accept", SOON, sockets_accept},
    {"sockets_accept_timeout", TIMEOUT, sockets_accept_timeout},
    {"sockets_connect_full", SOON, sockets_connect_full},
    {"sockets_connect_timeout", TIMEOUT, sockets_connect_timeout},
    {"sockets_tcp", SOON, sockets_tcp},
    {"sockets_tcp_refused", 0, sockets_tcp_refused},
    {"sockets_udp", SOON, sockets_udp},
    {"sockets_udp_connected", TIMEOUT, sockets_udp_connected},
    {"sockets_shutdown", SOON, sockets_shutdown},
    {"sockets_seqpacket", SOON, sockets_seqpacket},
    {"sockets_sendmmsg", 0, sockets_sendmmsg},
    {NULL, 0, NULL},
};
