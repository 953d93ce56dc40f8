/* respond NAME ID RESPONSE COUNT: sends a frame with the identifier RESPONSE 2 ms after each received frame with the
 * identifier ID. */
#include "node.h"

int main(int count, char **words) {
    struct can_filter wanted = {.can_mask = CAN_EFF_FLAG | CAN_RTR_FLAG | CAN_SFF_MASK};
    struct can_frame frame;
    if (count != 5) {
        return 2;
    }
    int fd = open_can(words[1]);
    wanted.can_id = (canid_t)strtoul(words[2], NULL, 16);
    setsockopt(fd, SOL_CAN_RAW, CAN_RAW_FILTER, &wanted, sizeof wanted);
    for (long k = 0; k < atol(words[4]); k++) {
        if (read(fd, &frame, sizeof frame) < 0) {
            perror("read");
            return 1;
        }
        usleep(2000);
        frame.can_id = (canid_t)strtoul(words[3], NULL, 16);
        if (write(fd, &frame, sizeof frame) < 0) {
            perror("write");
            return 1;
        }
    }
    return 0;
}
