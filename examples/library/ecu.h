/* An ECU that answers requests for its speed. Its CAN driver consists of five functions. */
#ifndef ECU_H
#define ECU_H

#include <stdbool.h>
#include <stdint.h>

typedef struct can_driver {
    void *self;
    bool (*send)(void *self, uint32_t id, const uint8_t *data, uint8_t len);
    bool (*receive)(void *self, uint32_t *id, uint8_t *data, uint8_t *len);
    bool (*is_off)(void *self);
    void (*restart)(void *self);
    uint32_t (*errors)(void *self);
} can_driver;

/* Receives all pending frames and answers them. Restarts the controller if it is bus off. */
void ecu_step(const can_driver *can, uint8_t speed);

#endif
