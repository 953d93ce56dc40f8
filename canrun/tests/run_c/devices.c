/* CAN interfaces as network devices: getifaddrs, and CAN sockets that are bound to a device, which has no effect. */
#include "check.h"
#include <ifaddrs.h>

/* Checks that an interface has one entry, without an address. */
static void entry(const struct ifaddrs *list, const char *name) {
    int count = 0;
    for (; list; list = list->ifa_next) {
        if (strcmp(list->ifa_name, name) != 0) {
            continue;
        }
        count++;
        CHECK(list->ifa_flags & IFF_UP && list->ifa_flags & IFF_NOARP && list->ifa_data);
        CHECK(!list->ifa_addr && !list->ifa_netmask && !list->ifa_broadaddr);
    }
    CHECK(count == 1);
}

static void lists(void) {
    struct ifaddrs *list;
    for (int i = 0; i < 2; i++) {
        CHECK(getifaddrs(&list) == 0);
        entry(list, "can0");
        entry(list, "can1");
        freeifaddrs(list);
    }
}

static void bound_device(int fd, const char *expected) {
    char name[IFNAMSIZ] = "?";
    socklen_t length = sizeof name;
    CHECK(getsockopt(fd, SOL_SOCKET, SO_BINDTODEVICE, name, &length) == 0);
    CHECK(length == (*expected ? strlen(expected) + 1 : 0) && (!length || !strcmp(name, expected)));
}

static void devices(void) {
    int fd = bound("can0"), reader = bound("can1"), index = 0;
    char name[IFNAMSIZ];
    socklen_t length = sizeof index;
    bound_device(fd, "");
    CHECK(setsockopt(fd, SOL_SOCKET, SO_BINDTODEVICE, "can1", 5) == 0);
    bound_device(fd, "can1");
    CHECK(getsockopt(fd, SOL_SOCKET, SO_BINDTOIFINDEX, &index, &length) == 0 && index == (int)if_nametoindex("can1"));
    length = 4;
    FAILS(getsockopt(fd, SOL_SOCKET, SO_BINDTODEVICE, name, &length), EINVAL);
    FAILS(setsockopt(fd, SOL_SOCKET, SO_BINDTODEVICE, "can7", 5), ENODEV);
    FAILS(setsockopt(fd, SOL_SOCKET, SO_BINDTODEVICE, (char *)16, 5), EFAULT);
    FAILS(setsockopt(fd, SOL_SOCKET, SO_BINDTODEVICE, "can0", -1), EINVAL);
    bound_device(fd, "can1");
    CHECK(setsockopt(fd, SOL_SOCKET, SO_BINDTODEVICE, "can0 and more", 4) == 0);
    bound_device(fd, "can0");
    send_numbered(fd, 0x123, 1);
    get(reader, 0x123, 1);
    send_numbered(reader, 0x123, 2);
    get(fd, 0x123, 2);
    CHECK(setsockopt(fd, SOL_SOCKET, SO_BINDTODEVICE, "", 0) == 0);
    bound_device(fd, "");
    CHECK(close(fd) == 0 && close(reader) == 0);
}

int main(void) {
    lists();
    devices();
    return 0;
}
