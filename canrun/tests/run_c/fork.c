/* A socket survives fork, dup, exec and SCM_RIGHTS, and ends when its last copy is closed. If this program is run with
 * a number as its argument, it has inherited the descriptor with that number. */
#include "check.h"

static void send_descriptor(int through, int fd) {
    char room[CMSG_SPACE(sizeof(int))] = {0};
    struct iovec part = {"x", 1};
    struct msghdr message = {.msg_iov = &part, .msg_iovlen = 1, .msg_control = room, .msg_controllen = sizeof room};
    struct cmsghdr *rights = CMSG_FIRSTHDR(&message);
    rights->cmsg_level = SOL_SOCKET;
    rights->cmsg_type = SCM_RIGHTS;
    rights->cmsg_len = CMSG_LEN(sizeof(int));
    memcpy(CMSG_DATA(rights), &fd, sizeof fd);
    CHECK(sendmsg(through, &message, 0) == 1);
}

static int receive_descriptor(int through) {
    char room[CMSG_SPACE(sizeof(int))], data;
    struct iovec part = {&data, 1};
    struct msghdr message = {.msg_iov = &part, .msg_iovlen = 1, .msg_control = room, .msg_controllen = sizeof room};
    int fd;
    CHECK(recvmsg(through, &message, 0) == 1 && CMSG_FIRSTHDR(&message));
    memcpy(&fd, CMSG_DATA(CMSG_FIRSTHDR(&message)), sizeof fd);
    return fd;
}

static void succeeds(pid_t child) {
    int status;
    CHECK(waitpid(child, &status, 0) == child && WIFEXITED(status) && WEXITSTATUS(status) == 0);
}

int main(int count, char **words) {
    if (count > 1) {
        send_numbered(atoi(words[1]), 0x123, 50);
        struct sockaddr_can own;
        socklen_t length = sizeof own;
        CHECK(getsockname(atoi(words[1]), (struct sockaddr *)&own, &length) == 0 &&
              own.can_ifindex == (int)if_nametoindex("can0"));
        return 0;
    }
    int writer = bound("can0"), reader = bound("can1"), pair[2];
    pid_t child = fork();
    if (child == 0) {
        send_numbered(writer, 0x123, 1);
        get(reader, 0x123, 1);
        _exit(0);
    }
    succeeds(child);
    send_numbered(writer, 0x123, 2); /* The child's copies are closed, but this process still has the socket. */
    get(reader, 0x123, 2);
    int copy = dup(writer), third = dup2(copy, 77);
    CHECK(copy >= 0 && third == 77 && close(writer) == 0 && close(copy) == 0);
    send_numbered(third, 0x123, 3);
    get(reader, 0x123, 3);
    CHECK(socketpair(AF_UNIX, SOCK_STREAM, 0, pair) == 0);
    send_descriptor(pair[0], third);
    CHECK(close(third) == 0);
    int arrived = receive_descriptor(pair[1]);
    send_numbered(arrived, 0x123, 4);
    get(reader, 0x123, 4);
    child = fork();
    if (child == 0) {
        char number[12];
        snprintf(number, sizeof number, "%d", arrived);
        execl("/proc/self/exe", words[0], number, NULL);
        _exit(127);
    }
    succeeds(child);
    get(reader, 0x123, 50);
    return 0;
}
