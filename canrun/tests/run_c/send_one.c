/* Sends one frame on the named interface, and exits. */
#include "check.h"

int main(int count, char **words) {
    CHECK(count == 2);
    send_numbered(bound(words[1]), 0x123, 1);
    return 0;
}
