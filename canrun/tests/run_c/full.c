/* A transmit queue of 10 frames on a bus that sends one frame a second: the 12th write or an earlier one fails because
 * the queue is full. With the argument `wait`, no write fails. */
#include "check.h"

int main(int count, char **words) {
    int writer = bound("can0"), reader = bound("can1"), refused = 0;
    bool waits = count > 1 && !strcmp(words[1], "wait");
    unsigned accepted = 0, frames = waits ? 30 : 20;
    for (unsigned i = 0; i < frames; i++) {
        struct can_frame frame = frame_of(0x123, accepted);
        if (write(writer, &frame, sizeof frame) == sizeof frame) {
            accepted++;
        } else {
            CHECK(errno == ENOBUFS);
            refused++;
        }
    }
    CHECK(waits ? refused == 0 : refused >= 8 && accepted >= 10);
    for (unsigned i = 0; i < (waits ? frames : 1); i++) {
        get(reader, 0x123, i);
    }
    return 0;
}
