#include "ecu.h"

void ecu_step(const can_driver *can, uint8_t speed) {
    uint32_t id;
    uint8_t data[8], len;
    if (can->is_off(can->self))
        can->restart(can->self);
    while (can->receive(can->self, &id, data, &len)) {
        /* A request of OBD-II: service 1, PID 0D (vehicle speed). */
        if (id == 0x7DF && len >= 3 && data[1] == 0x01 && data[2] == 0x0D) {
            const uint8_t answer[8] = {3, 0x41, 0x0D, speed};
            can->send(can->self, 0x7E8, answer, sizeof answer);
        }
    }
}
