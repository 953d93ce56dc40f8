/* cyclic NAME ID MICROSECONDS COUNT [DATA]: sends frames at exact times, beginning at the next whole second. DATA is in
 * hexadecimal digits. Without DATA the data of a frame are its number in two bytes. Built with SENDS_ONLY, the socket
 * has an empty filter. Built with READS, the program reads all frames that arrive in between. */
#include "node.h"

#include <poll.h>

static void read_data(struct can_frame *frame, const char *digits) {
    for (frame->can_dlc = 0; frame->can_dlc < 8 && digits[0] && digits[1]; digits += 2) {
        char byte[3] = {digits[0], digits[1], 0};
        frame->data[frame->can_dlc++] = (unsigned char)strtoul(byte, NULL, 16);
    }
}

#ifdef READS
static void wait_until(int fd, const struct timespec *moment) {
    struct pollfd polled = {fd, POLLIN, 0};
    struct can_frame frame;
    for (;;) {
        struct timespec now;
        clock_gettime(CLOCK_REALTIME, &now);
        long left = (moment->tv_sec - now.tv_sec) * SECOND + moment->tv_nsec - now.tv_nsec;
        struct timespec rest = later((struct timespec){0, 0}, left > 0 ? left : 0);
        if (ppoll(&polled, 1, &rest, NULL) <= 0 || read(fd, &frame, sizeof frame) < 0) {
            return;
        }
    }
}
#else
static void wait_until(int fd, const struct timespec *moment) {
    (void)fd;
    clock_nanosleep(CLOCK_REALTIME, TIMER_ABSTIME, moment, NULL);
}
#endif

int main(int count, char **words) {
    struct can_frame frame = {.can_dlc = 2};
    struct timespec moment;
    if (count < 5 || count > 6) {
        return 2;
    }
    int fd = open_can(words[1]), has_data = count == 6;
#ifdef SENDS_ONLY
    setsockopt(fd, SOL_CAN_RAW, CAN_RAW_FILTER, NULL, 0);
#endif
    frame.can_id = (canid_t)strtoul(words[2], NULL, 16);
    if (has_data) {
        read_data(&frame, words[5]);
    }
    clock_gettime(CLOCK_REALTIME, &moment);
    moment = (struct timespec){moment.tv_sec + 1, 0};
    for (long k = 0; k < atol(words[4]); k++, moment = later(moment, atol(words[3]) * 1000)) {
        wait_until(fd, &moment);
        if (!has_data) {
            frame.data[0] = (unsigned char)(k >> 8);
            frame.data[1] = (unsigned char)k;
        }
        if (write(fd, &frame, sizeof frame) < 0) {
            printf("%ld.%06ld %s\n", moment.tv_sec, moment.tv_nsec / 1000, strerror(errno));
        }
    }
    return 0;
}
