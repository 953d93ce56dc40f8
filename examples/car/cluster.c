/* An instrument cluster, as an ordinary program for SocketCAN, without code for canbusd.
 *
 *     cluster INTERFACE
 *
 * It does the same as cluster.py. See there for a description. */
#include <linux/can.h>
#include <linux/can/error.h>
#include <linux/can/isotp.h>
#include <linux/can/raw.h>
#include <net/if.h>
#include <poll.h>
#include <stdbool.h>
#include <stdint.h>
#include <stdio.h>
#include <string.h>
#include <sys/socket.h>
#include <time.h>
#include <unistd.h>

enum { ENGINE = 0x100, COMFORT = 0x200, STATE = 0x300, REQUEST = 0x7E0, ANSWER = 0x7E8 };
enum { PERIOD = 50, LOST = 250, STUCK = 400 };
static const char NAME[] = "CLUSTER-000000001";

struct cluster {
    int64_t heard, counted;
    int counter;
    unsigned speed, alive;
    bool is_ice, is_on;
};

static int64_t now_ms(void) {
    struct timespec now;
    clock_gettime(CLOCK_MONOTONIC, &now);
    return (int64_t)now.tv_sec * 1000 + now.tv_nsec / 1000000;
}

static void take(struct cluster *cluster, const struct can_frame *frame, int64_t now) {
    if (frame->can_id & CAN_ERR_FLAG) {
        if (frame->can_id & CAN_ERR_BUSOFF) {
            cluster->is_on = false;
        } else if (frame->can_id & CAN_ERR_RESTARTED) {
            cluster->is_on = true;
            cluster->alive = 0;
        }
    } else if (frame->can_id == ENGINE) {
        cluster->heard = now;
        cluster->speed = frame->data[0] | (unsigned)frame->data[1] << 8;
        if ((frame->data[2] & 15) != cluster->counter) {
            cluster->counter = frame->data[2] & 15;
            cluster->counted = now;
        }
    } else if (frame->can_id == COMFORT && frame->data[0] == 1) {
        cluster->is_ice = frame->data[1] <= 2 * (40 + 3);
    }
}

static void send_state(struct cluster *cluster, int node, int64_t now) {
    unsigned lamp = now - cluster->heard > LOST ? 1 : now - cluster->counted > STUCK ? 2 : 0;
    unsigned shown = lamp | (unsigned)cluster->is_ice << 3 | cluster->alive << 4;
    struct can_frame frame = {
        .can_id = STATE,
        .can_dlc = 3,
        .data = {(uint8_t)shown, (uint8_t)cluster->speed, (uint8_t)(cluster->speed >> 8)},
    };
    cluster->alive = (cluster->alive + 1) & 15;
    if (write(node, &frame, sizeof frame) != sizeof frame) {
        /* If the interface is bus off, or its queue is full, a later write may succeed. */
        perror("cluster");
    }
}

static void answer(int tester) {
    static const uint8_t name[] = {0x22, 0xF1, 0x90};
    uint8_t request[4095], said[3 + sizeof NAME - 1] = {0x62, 0xF1, 0x90};
    ssize_t size = read(tester, request, sizeof request);
    if (size <= 0) {
        return;
    }
    memcpy(said + 3, NAME, sizeof NAME - 1);
    size_t length = sizeof said;
    if (size != sizeof name || memcmp(request, name, sizeof name) != 0) {
        said[0] = 0x7F;
        said[1] = request[0];
        said[2] = 0x31;
        length = 3;
    }
    if (write(tester, said, length) < 0) {
        perror("answer");
    }
}

static int open_node(unsigned interface) {
    int node = socket(PF_CAN, SOCK_RAW, CAN_RAW);
    struct sockaddr_can address = {.can_family = AF_CAN, .can_ifindex = (int)interface};
    can_err_mask_t errors = CAN_ERR_BUSOFF | CAN_ERR_RESTARTED;
    if (setsockopt(node, SOL_CAN_RAW, CAN_RAW_ERR_FILTER, &errors, sizeof errors) ||
        bind(node, (struct sockaddr *)&address, sizeof address)) {
        perror("node");
        return -1;
    }
    return node;
}

static int open_tester(unsigned interface) {
    int tester = socket(PF_CAN, SOCK_DGRAM, CAN_ISOTP);
    struct sockaddr_can address = {.can_family = AF_CAN, .can_ifindex = (int)interface};
    address.can_addr.tp.rx_id = REQUEST;
    address.can_addr.tp.tx_id = ANSWER;
    if (bind(tester, (struct sockaddr *)&address, sizeof address)) {
        perror("tester");
        return -1;
    }
    return tester;
}

int main(int count, char **words) {
    unsigned interface = if_nametoindex(count > 1 ? words[1] : "can0");
    int node = open_node(interface), tester = open_tester(interface);
    int64_t due = now_ms();
    struct cluster cluster = {.heard = due, .counted = due, .counter = -1, .is_on = true};
    if (node < 0 || tester < 0) {
        return 1;
    }
    for (;;) {
        struct pollfd polled[] = {{node, POLLIN, 0}, {tester, POLLIN, 0}};
        int64_t left = due - now_ms();
        struct can_frame frame;
        if (poll(polled, 2, left > 0 ? (int)left : 0) < 0) {
            return 1;
        }
        if (polled[0].revents && read(node, &frame, sizeof frame) == sizeof frame) {
            take(&cluster, &frame, now_ms());
        }
        if (polled[1].revents) {
            answer(tester);
        }
        if (now_ms() >= due) {
            due += PERIOD;
            if (cluster.is_on) {
                send_state(&cluster, node, now_ms());
            }
        }
    }
}
