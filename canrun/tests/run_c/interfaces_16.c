/* Sixteen interfaces: if_nameindex lists all of them, and a socket on all interfaces receives frames from each of them.
 */
#include "check.h"

int main(void) {
    struct if_nameindex *list = if_nameindex();
    unsigned found = 0;
    CHECK(list);
    for (struct if_nameindex *one = list; one->if_index; one++) {
        char name[IFNAMSIZ];
        unsigned number;
        if (sscanf(one->if_name, "node%u", &number) == 1) {
            CHECK(number < 16 && !(found & 1u << number));
            found |= 1u << number;
            CHECK(if_nametoindex(one->if_name) == one->if_index);
            CHECK(if_indextoname(one->if_index, name) && !strcmp(name, one->if_name));
        }
    }
    if_freenameindex(list);
    CHECK(found == 0xFFFF);
    int any = bound(NULL);
    for (unsigned i = 0; i < 16; i++) {
        char name[IFNAMSIZ];
        snprintf(name, sizeof name, "node%u", i);
        int fd = bound(name);
        unsigned indices = 0;
        send_numbered(fd, 0x123, i);
        for (int copy = 0; copy < 16; copy++) {
            struct can_frame frame;
            struct sockaddr_can from;
            socklen_t length = sizeof from;
            unsigned number;
            CHECK(comes(any, PATIENCE) &&
                  recvfrom(any, &frame, sizeof frame, 0, (struct sockaddr *)&from, &length) == 16);
            CHECK(number_of(&frame) == i && if_indextoname((unsigned)from.can_ifindex, name) &&
                  sscanf(name, "node%u", &number) == 1);
            indices |= 1u << number;
        }
        CHECK(indices == 0xFFFF && close(fd) == 0);
    }
    return 0;
}
