/* FD frames: which sockets receive them, their lengths, and the sizes of reads. */
#include "check.h"

int main(void) {
    static const unsigned char lengths[] = {0, 1, 8, 12, 16, 20, 24, 32, 48, 64};
    int writer = bound("can0"), reader = bound("can1"), classic = bound("can1");
    struct ifreq request = {.ifr_name = "can0"};
    CHECK(ioctl(writer, SIOCGIFMTU, &request) == 0 && request.ifr_mtu == CANFD_MTU);
    set(writer, CAN_RAW_FD_FRAMES, 1);
    set(reader, CAN_RAW_FD_FRAMES, 1);
    for (size_t i = 0; i < sizeof lengths; i++) {
        struct canfd_frame frame = {.can_id = i % 2 ? 0x123 : 0x1ABCDEF0 | CAN_EFF_FLAG, .len = lengths[i]},
                           got_frame = {0};
        frame.flags = (unsigned char)(i % 4);
        for (unsigned at = 0; at < frame.len; at++) {
            frame.data[at] = (unsigned char)(at * 3 + i);
        }
        CHECK(write(writer, &frame, sizeof frame) == CANFD_MTU);
        CHECK(comes(reader, PATIENCE) && read(reader, &got_frame, sizeof got_frame) == CANFD_MTU);
        CHECK(got_frame.can_id == frame.can_id && got_frame.len == frame.len &&
              got_frame.flags == (frame.flags | CANFD_FDF) && !memcmp(got_frame.data, frame.data, frame.len));
    }
    /* A frame with an invalid length is padded with zeros to the next valid length. */
    struct canfd_frame odd = {.can_id = 0x123, .len = 9, .data = {9, 9, 9, 9, 9, 9, 9, 9, 9}}, filled = {0};
    CHECK(write(writer, &odd, sizeof odd) == CANFD_MTU);
    CHECK(read(reader, &filled, sizeof filled) == CANFD_MTU && filled.len == 12 && filled.data[8] == 9 &&
          filled.data[9] == 0);
    /* One read call returns both kinds of frame. A socket without the option gets classic frames only. */
    send_numbered(writer, 0x321, 7);
    CHECK(read(reader, &filled, sizeof filled) == CAN_MTU && filled.can_id == 0x321);
    get(classic, 0x321, 7);
    CHECK(!comes(classic, QUIET));
    set(writer, CAN_RAW_FD_FRAMES, 0);
    FAILS(write(writer, &odd, sizeof odd), EINVAL);
    return 0;
}
