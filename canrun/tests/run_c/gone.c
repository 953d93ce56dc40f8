/* The server ends while a read waits, as if the device were unregistered. The read fails with ENODEV, and writes fail
 * with ENXIO. The program prints a word when the server should end. */
#include "check.h"

int main(void) {
    struct can_frame frame;
    int reader = bound("can1"), writer = bound("can0");
    send_numbered(writer, 0x123, 1);
    CHECK(comes(reader, PATIENCE));
    printf("ready\n");
    fflush(stdout);
    get(reader, 0x123, 1); /* Frames that have arrived can still be read. */
    struct can_frame other;
    CHECK(comes(reader, PATIENCE));
    FAILS(read(reader, &other, sizeof other), ENODEV);
    FAILS(recv(reader, &other, sizeof other, MSG_DONTWAIT), EAGAIN); /* The error comes only once. */
    CHECK(!comes(reader, QUIET));
    frame = frame_of(0x123, 2);
    CHECK(comes(writer, PATIENCE));
    FAILS(write(writer, &frame, sizeof frame), ENXIO);
    int error = 0;
    socklen_t length = sizeof error;
    CHECK(getsockopt(writer, SOL_SOCKET, SO_ERROR, &error, &length) == 0 && error == ENODEV);
    FAILS(recv(writer, &other, sizeof other, MSG_DONTWAIT), EAGAIN);
    int late = socket(PF_CAN, SOCK_RAW, CAN_RAW);
    struct sockaddr_can address = {.can_family = AF_CAN, .can_ifindex = 0};
    CHECK(late >= 0);
    FAILS(bind(late, (struct sockaddr *)&address, sizeof address), ENODEV);
    return 0;
}
