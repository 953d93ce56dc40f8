/* A node that sends a heartbeat every 20 milliseconds. It is an ordinary C program for SocketCAN, without code for
 * canbusd.
 *
 * Its controller goes bus off if too many of its frames are destroyed. Then the program waits for the restart, and
 * counts from 0 again, so that other nodes notice that it was absent. It ends after three more heartbeats. */
#include <errno.h>
#include <linux/can.h>
#include <linux/can/error.h>
#include <linux/can/raw.h>
#include <net/if.h>
#include <poll.h>
#include <stdbool.h>
#include <stdio.h>
#include <sys/socket.h>
#include <unistd.h>

#define HEARTBEAT 0x701
#define PERIOD 20

static int open_node(const char *interface) {
    int node = socket(PF_CAN, SOCK_RAW, CAN_RAW);
    struct sockaddr_can address = {.can_family = AF_CAN, .can_ifindex = (int)if_nametoindex(interface)};
    can_err_mask_t errors = CAN_ERR_BUSOFF | CAN_ERR_RESTARTED;
    if (node < 0 || setsockopt(node, SOL_CAN_RAW, CAN_RAW_ERR_FILTER, &errors, sizeof errors) ||
        setsockopt(node, SOL_CAN_RAW, CAN_RAW_FILTER, NULL, 0) ||
        bind(node, (struct sockaddr *)&address, sizeof address)) {
        perror(interface);
        return -1;
    }
    return node;
}

/* Waits for an error message frame, for one period. Returns the class of the frame, or 0 if none arrives. */
static canid_t wait_for_error(int node) {
    struct pollfd polled = {node, POLLIN, 0};
    struct can_frame frame;
    if (poll(&polled, 1, PERIOD) <= 0 || read(node, &frame, sizeof frame) != sizeof frame) {
        return 0;
    }
    return frame.can_id & CAN_ERR_MASK;
}

int main(int count, char **words) {
    int node = open_node(count > 1 ? words[1] : "can0");
    unsigned char number = 0;
    bool is_on = true, was_off = false;
    if (node < 0) {
        return 1;
    }
    while (!(was_off && number == 3)) {
        struct can_frame heartbeat = {.can_id = HEARTBEAT, .can_dlc = 1, .data = {number}};
        if (is_on && write(node, &heartbeat, sizeof heartbeat) == sizeof heartbeat) {
            number++;
        } else if (is_on && errno != ENETDOWN && errno != ENOBUFS) {
            perror("heartbeat");
            return 1;
        }
        canid_t error = wait_for_error(node);
        if (error & CAN_ERR_BUSOFF) {
            puts("bus off");
            is_on = false;
        } else if (error & CAN_ERR_RESTARTED) {
            puts("restarted");
            is_on = was_off = true;
            number = 0;
        }
    }
    return 0;
}
