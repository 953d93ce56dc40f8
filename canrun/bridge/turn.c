/* The functions of the bridge for virtual time. */
#include "../virtual/turns.h"

bool is_virtual(void);
void wake_number(uint64_t number);

bool is_virtual(void) {
    return run;
}

void wake_number(uint64_t number) {
    wake(key_of_number(number), 1);
}
