/* A socket with a small SO_RCVBUF that is not read loses frames. SO_RXQ_OVFL counts the lost frames. Together with the
 * received frames they are all the frames that were sent. A socket without SO_RCVBUF loses none, because the server has
 * room for them. */
#include "check.h"

#define FRAMES 20000

static unsigned take(int fd, uint32_t *dropped) {
    char control[64];
    struct can_frame frame;
    struct iovec part = {&frame, sizeof frame};
    struct msghdr message = {
        .msg_iov = &part, .msg_iovlen = 1, .msg_control = control, .msg_controllen = sizeof control};
    CHECK(comes(fd, PATIENCE) && recvmsg(fd, &message, 0) == sizeof frame);
    for (struct cmsghdr *one = CMSG_FIRSTHDR(&message); one; one = CMSG_NXTHDR(&message, one)) {
        if (one->cmsg_level == SOL_SOCKET && one->cmsg_type == SO_RXQ_OVFL) {
            memcpy(dropped, CMSG_DATA(one), sizeof *dropped);
        }
    }
    return frame.can_id == 0x7FF ? UINT32_MAX : number_of(&frame);
}

int main(void) {
    int writer = bound("can0"), slow = bound("can1"), sync = bound("can1"), patient = bound("can1");
    uint32_t dropped = 0, received = 0, next = 0, number;
    CHECK(setsockopt(slow, SOL_SOCKET, SO_RCVBUF, &(int){1}, sizeof(int)) == 0);
    CHECK(setsockopt(slow, SOL_SOCKET, SO_RXQ_OVFL, &(int){1}, sizeof(int)) == 0);
    for (unsigned i = 0; i < FRAMES; i++) {
        send_patiently(writer, 0x123, i);
        get(sync, 0x123, i);
    }
    for (unsigned i = 0; i < FRAMES; i++) {
        get(patient, 0x123, i);
    }
    while (comes(slow, QUIET)) {
        number = take(slow, &dropped);
        CHECK(number >= next);
        next = number + 1;
        received++;
    }
    usleep(QUIET * 1000);
    send_patiently(writer, 0x7FF, 0);
    CHECK(take(slow, &dropped) == UINT32_MAX);
    CHECK(dropped > 0 && received < FRAMES && received + dropped == FRAMES);
    printf("%u received, %u lost\n", received, dropped);
    return 0;
}
