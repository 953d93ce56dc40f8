/* A socket on all interfaces receives the frames in order, starting with the first frame: a gateway's answer comes
 * after the frame that caused it, and timestamps never decrease. There are two buses, and the program also listens on a
 * second interface of each bus. */
#include "check.h"
#include <pthread.h>

#define FRAMES 300

/* Answers each frame received on can1 with a frame on car0. */
static void *gateway(void *ready) {
    int in = bound("can1"), out = bound("car0");
    CHECK(write(*(int *)ready, "x", 1) == 1);
    for (unsigned i = 0; i < FRAMES; i++) {
        get(in, 0x100, i);
        send_patiently(out, 0x200, i);
    }
    close(in);
    close(out);
    return NULL;
}

static int64_t moment_of(struct msghdr *message) {
    int64_t moment[2] = {0, 0};
    for (struct cmsghdr *one = CMSG_FIRSTHDR(message); one; one = CMSG_NXTHDR(message, one)) {
        if (one->cmsg_level == SOL_SOCKET && one->cmsg_type == SO_TIMESTAMP) {
            memcpy(moment, CMSG_DATA(one), sizeof moment);
        }
    }
    return moment[0] * 1000000 + moment[1];
}

static struct can_frame take(int fd, int64_t *moment) {
    char control[64];
    struct can_frame frame;
    struct iovec part = {&frame, sizeof frame};
    struct msghdr message = {
        .msg_iov = &part, .msg_iovlen = 1, .msg_control = control, .msg_controllen = sizeof control};
    CHECK(comes(fd, PATIENCE) && recvmsg(fd, &message, 0) == sizeof frame);
    *moment = moment_of(&message);
    return frame;
}

int main(void) {
    int ends[2];
    pthread_t thread;
    CHECK(pipe(ends) == 0 && pthread_create(&thread, NULL, gateway, &ends[1]) == 0);
    CHECK(read(ends[0], &(char){0}, 1) == 1);
    int writer = bound("can0"), all = bound(NULL), count = 0;
    CHECK(setsockopt(all, SOL_SOCKET, SO_TIMESTAMP, &(int){1}, sizeof(int)) == 0);
    unsigned causes = 0, answers = 0;
    int64_t last = 0, moment;
    for (unsigned i = 0; i < FRAMES; i++) {
        send_patiently(writer, 0x100, i);
    }
    /* Each frame arrives once at each interface of its bus: can0 and can1, or car0 and car1. */
    for (; count < 4 * FRAMES; count++) {
        struct can_frame frame = take(all, &moment);
        CHECK(moment >= last);
        last = moment;
        unsigned number = number_of(&frame);
        if (frame.can_id == 0x100) {
            CHECK(number == causes / 2);
            causes++;
        } else {
            CHECK(number == answers / 2 && answers / 2 < (causes + 1) / 2);
            answers++;
        }
    }
    CHECK(pthread_join(thread, NULL) == 0);
    printf("%u and %u\n", causes, answers);
    return 0;
}
