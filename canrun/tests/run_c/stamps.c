/* Timestamps: every way to request them returns the same timestamp, the one from the bus. The program prints it, so
 * that the test can compare it with the server's log. */
#include "check.h"
#include <linux/net_tstamp.h>
#include <linux/sockios.h>

/* Returns the timestamp in nanoseconds from a control message of this type, or 0 if there is none. */
static int64_t stamp_of(int fd, int type) {
    char control[256];
    struct can_frame frame;
    struct iovec part = {&frame, sizeof frame};
    struct msghdr message = {
        .msg_iov = &part, .msg_iovlen = 1, .msg_control = control, .msg_controllen = sizeof control};
    int64_t found = 0;
    CHECK(comes(fd, PATIENCE) && recvmsg(fd, &message, 0) == sizeof frame && !(message.msg_flags & MSG_CTRUNC));
    for (struct cmsghdr *one = CMSG_FIRSTHDR(&message); one; one = CMSG_NXTHDR(&message, one)) {
        struct timespec moment;
        struct timeval micro;
        CHECK(one->cmsg_level == SOL_SOCKET && one->cmsg_type == type && !found);
        if (type == SO_TIMESTAMP) {
            memcpy(&micro, CMSG_DATA(one), sizeof micro);
            found = micro.tv_sec * 1000000000ll + micro.tv_usec * 1000ll;
        } else {
            memcpy(&moment, CMSG_DATA(one), sizeof moment);
            found = moment.tv_sec * 1000000000ll + moment.tv_nsec;
        }
    }
    return found;
}

int main(void) {
    static const struct {
        int option, type, value;
    } ways[] = {{SO_TIMESTAMP, SO_TIMESTAMP, 1},
                {SO_TIMESTAMPNS, SO_TIMESTAMPNS, 1},
                {SO_TIMESTAMPING, SO_TIMESTAMPING, SOF_TIMESTAMPING_SOFTWARE | SOF_TIMESTAMPING_RX_SOFTWARE}};
    int writer = bound("can0"), readers[3], last = bound("can1"), plain = bound("can1");
    for (int i = 0; i < 3; i++) {
        readers[i] = bound("can1");
        CHECK(setsockopt(readers[i], SOL_SOCKET, ways[i].option, &ways[i].value, sizeof(int)) == 0);
    }
    for (unsigned round = 0; round < 3; round++) {
        struct timespec now;
        struct timeval micro;
        struct timespec nano;
        send_numbered(writer, 0x123, round);
        int64_t moment = stamp_of(readers[0], ways[0].type);
        clock_gettime(CLOCK_REALTIME, &now);
        CHECK(moment <= now.tv_sec * 1000000000ll + now.tv_nsec && moment > (now.tv_sec - 60) * 1000000000ll);
        CHECK(stamp_of(readers[1], ways[1].type) == moment && stamp_of(readers[2], ways[2].type) == moment);
        get(last, 0x123, round);
        CHECK(ioctl(last, SIOCGSTAMP, &micro) == 0 && micro.tv_sec * 1000000000ll + micro.tv_usec * 1000ll == moment);
        CHECK(ioctl(last, SIOCGSTAMPNS, &nano) == 0 && nano.tv_sec * 1000000000ll + nano.tv_nsec == moment);
        CHECK(stamp_of(plain, -1) == 0);
        printf("%lld.%06lld\n", (long long)(moment / 1000000000), (long long)(moment / 1000 % 1000000));
    }
    /* Without room for the control message, the frame has the flag MSG_CTRUNC. */
    char little[4];
    struct can_frame frame;
    struct iovec part = {&frame, sizeof frame};
    struct msghdr message = {.msg_iov = &part, .msg_iovlen = 1, .msg_control = little, .msg_controllen = sizeof little};
    send_numbered(writer, 0x123, 9);
    CHECK(comes(readers[2], PATIENCE) && recvmsg(readers[2], &message, 0) == sizeof frame &&
          message.msg_flags & MSG_CTRUNC);
    return 0;
}
