/* full NAME SECONDS: sends a frame every 10 ms for SECONDS seconds, without reading. Then reads until no frame has
 * arrived for a second. Prints the numbers of the other node's frames: the first and the last number of each sequence
 * without a gap. */
#include "node.h"

#include <poll.h>

static unsigned number_of(const struct can_frame *frame) {
    return (unsigned)(frame->data[0] << 8 | frame->data[1]);
}

int main(int count, char **words) {
    struct can_frame frame = {.can_id = 0x300, .can_dlc = 1};
    unsigned next = 0;
    if (count != 3) {
        return 2;
    }
    int fd = open_can(words[1]);
    for (long k = 0; k < atol(words[2]) * 100; k++) {
        if (write(fd, &frame, sizeof frame) != sizeof frame) {
            perror("write");
        }
        usleep(10000);
    }
    while (poll(&(struct pollfd){fd, POLLIN, 0}, 1, 1000) > 0 && read(fd, &frame, sizeof frame) == sizeof frame) {
        if (!next) {
            printf("%u", number_of(&frame));
        } else if (number_of(&frame) != next) {
            printf("-%u %u", next - 1, number_of(&frame));
        }
        next = number_of(&frame) + 1;
    }
    printf("-%u\n", next - 1);
    return 0;
}
