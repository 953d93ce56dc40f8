/* A body controller for SocketCAN, with two faults that a sweep finds. It has no code for canbusd.
 *
 * Each frame 123 is one press of a button, and the controller answers with 124, which contains the number of presses.
 * The first fault: a press has no number, so a frame that arrives twice counts as two presses. Every 20 ms the
 * controller sends 200 with a counter. The second fault: the counter is incremented even if the write was refused, so
 * receivers see a gap after bus off. */
#include <errno.h>
#include <linux/can.h>
#include <linux/can/error.h>
#include <linux/can/raw.h>
#include <net/if.h>
#include <poll.h>
#include <stdio.h>
#include <sys/socket.h>
#include <time.h>
#include <unistd.h>

static long long now(void) {
    struct timespec t;
    clock_gettime(CLOCK_MONOTONIC, &t);
    return t.tv_sec * 1000LL + t.tv_nsec / 1000000;
}

int main(int count, char **words) {
    int node = socket(PF_CAN, SOCK_RAW, CAN_RAW);
    struct sockaddr_can address = {.can_family = AF_CAN, .can_ifindex = (int)if_nametoindex(words[count - 1])};
    can_err_mask_t errors = CAN_ERR_BUSOFF | CAN_ERR_RESTARTED;
    struct can_frame frame, answer = {.can_id = 0x124, .can_dlc = 1}, cyclic = {.can_id = 0x200, .can_dlc = 1};
    long long due;
    setsockopt(node, SOL_CAN_RAW, CAN_RAW_ERR_FILTER, &errors, sizeof errors);
    if (node < 0 || bind(node, (struct sockaddr *)&address, sizeof address)) {
        perror("ecu");
        return 1;
    }
    for (due = now();;) {
        struct pollfd polled = {node, POLLIN, 0};
        long long left = due - now();
        if (poll(&polled, 1, left < 0 ? 0 : (int)left) > 0 && read(node, &frame, sizeof frame) == sizeof frame) {
            if (frame.can_id == 0x123) {
                answer.data[0]++;
                write(node, &answer, sizeof answer);
            }
        }
        if (now() >= due) {
            due += 20;
            write(node, &cyclic, sizeof cyclic);
            cyclic.data[0]++; /* even if the write was refused */
        }
    }
}
