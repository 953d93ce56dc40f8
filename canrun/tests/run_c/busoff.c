/* A node whose frames are destroyed 32 times, as in examples/bus_off_attack.script: the error message frames of
 * linux/can/error.h, ENETDOWN, and normal service after an automatic restart. */
#include "check.h"

static void error_comes(int fd, canid_t class, unsigned char controller) {
    struct can_frame frame = got(fd);
    if (frame.can_id != (class | CAN_ERR_FLAG) || frame.can_dlc != CAN_ERR_DLC || frame.data[1] != controller) {
        fprintf(stderr, "error message frame %X %02X instead of %X %02X\n", frame.can_id, frame.data[1], class,
                controller);
        exit(1);
    }
}

int main(void) {
    int node = bound("can0"), classes = bound("can0"), reader = bound("can1");
    can_err_mask_t all = CAN_ERR_MASK, off = CAN_ERR_BUSOFF;
    struct can_filter by_filter = {CAN_ERR_FLAG, CAN_ERR_FLAG | CAN_ERR_BUSOFF};
    int filtered = bound("can0");
    CHECK(setsockopt(node, SOL_CAN_RAW, CAN_RAW_ERR_FILTER, &all, sizeof all) == 0);
    CHECK(setsockopt(classes, SOL_CAN_RAW, CAN_RAW_ERR_FILTER, &off, sizeof off) == 0);
    CHECK(setsockopt(classes, SOL_CAN_RAW, CAN_RAW_FILTER, NULL, 0) == 0);
    CHECK(setsockopt(filtered, SOL_CAN_RAW, CAN_RAW_FILTER, &by_filter, sizeof by_filter) == 0);
    send_numbered(node, 0x123, 1);
    error_comes(node, 0x204, CAN_ERR_CRTL_TX_WARNING);
    error_comes(node, 0x204, CAN_ERR_CRTL_TX_PASSIVE);
    error_comes(node, CAN_ERR_BUSOFF, 0);
    error_comes(classes, CAN_ERR_BUSOFF, 0);
    error_comes(filtered, CAN_ERR_BUSOFF, 0);
    struct can_frame frame = frame_of(0x123, 2);
    ssize_t length = write(node, &frame, sizeof frame);
    CHECK(length == sizeof frame || errno == ENETDOWN); /* The restart may have come already. */
    bool was_down = length < 0;
    error_comes(node, CAN_ERR_RESTARTED, 0);
    send_numbered(node, 0x123, 3);
    if (!was_down) {
        get(reader, 0x123, 2);
    }
    get(reader, 0x123, 3);
    CHECK(!comes(classes, QUIET) && !comes(filtered, QUIET));
    printf("%s\n", was_down ? "down" : "up");
    return 0;
}
