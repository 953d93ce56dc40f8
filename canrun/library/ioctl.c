/* ioctl: requests for the properties of an interface, and for the timestamp of the last received frame. */
#define _GNU_SOURCE
#include "library.h"

#include "links.h"

#include <errno.h>
#include <linux/can.h>
#include <linux/sockios.h>
#include <net/if_arp.h>
#include <stdarg.h>
#include <string.h>

#define SECOND 1000000000u

static bool is_of_interface(unsigned long request) {
    return request == SIOCGIFNAME || request == SIOCGIFINDEX || request == SIOCGIFMTU || request == SIOCGIFFLAGS ||
           request == SIOCGIFHWADDR || request == SIOCGIFTXQLEN || request == SIOCGIFMETRIC || request == SIOCGIFMAP ||
           request == SIOCSIFFLAGS;
}

static bool is_of_stamp(unsigned long request) {
    return request == SIOCGSTAMP_OLD || request == SIOCGSTAMPNS_OLD || request == SIOCGSTAMP_NEW ||
           request == SIOCGSTAMPNS_NEW;
}

/* struct ifreq has room for the first 16 flags only. */
static short flags_of(int index) {
    struct link_facts facts = links_facts(index);
    return (short)link_flags(&facts);
}

/* Writes the requested property of one of the server's interfaces. */
static int fact_of_interface(unsigned long request, struct ifreq *interface) {
    if (request == SIOCGIFNAME) {
        char name[IFNAMSIZ];
        int result = name_of_index(interface->ifr_ifindex, name);
        memcpy(interface->ifr_name, name, result ? 0 : IFNAMSIZ);
        return result;
    }
    char name[IFNAMSIZ] = {0};
    memcpy(name, interface->ifr_name, strnlen(interface->ifr_name, IFNAMSIZ - 1));
    int index = index_of_name(name);
    if (index < 0) {
        return -1;
    }
    switch (request) {
    case SIOCGIFINDEX: interface->ifr_ifindex = index; break;
    case SIOCGIFMTU: interface->ifr_mtu = CANFD_MTU; break;
    case SIOCGIFFLAGS: interface->ifr_flags = flags_of(index); break;
    case SIOCGIFTXQLEN: interface->ifr_qlen = queue_length(); break;
    case SIOCGIFMETRIC: interface->ifr_metric = 0; break;
    case SIOCGIFMAP: memset(&interface->ifr_map, 0, sizeof interface->ifr_map); break;
    case SIOCSIFFLAGS: return links_set_up(index, interface->ifr_flags & IFF_UP);
    default:
        memset(&interface->ifr_hwaddr, 0, sizeof interface->ifr_hwaddr);
        interface->ifr_hwaddr.sa_family = ARPHRD_CAN;
    }
    return 0;
}

static int interface_ioctl(unsigned long request, void *argument) {
    struct ifreq interface;
    if (!copy_from(&interface, argument, sizeof interface)) {
        return fail(EFAULT);
    }
    int result = fact_of_interface(request, &interface);
    return result || copy_to(argument, &interface, sizeof interface) ? result : fail(EFAULT);
}

/* Writes the timestamp of the last frame that the program read. */
static int stamp_ioctl(const struct socket *sock, unsigned long request, void *argument) {
    struct shared *one = share_enter(sock);
    uint64_t stamp = one ? last_moment(one->memory, sock->fd) : 0;
    bool is_micro = request == SIOCGSTAMP_OLD || request == SIOCGSTAMP_NEW;
    if (one) {
        share_leave(one);
    }
    if (!stamp) {
        return refuse("ioctl", ENOENT, "no frame has been received");
    }
    int64_t parts[2] = {(int64_t)(stamp / SECOND), (int64_t)(stamp % SECOND / (is_micro ? 1000 : 1))};
    return copy_to(argument, parts, sizeof parts) ? 0 : fail(EFAULT);
}

EXPORT int ioctl(int fd, unsigned long request, ...) {
    va_list list;
    va_start(list, request);
    void *argument = va_arg(list, void *);
    va_end(list);
    bool is_ours = is_of_interface(request) || is_of_stamp(request) || request == FIONREAD || request == TIOCOUTQ ||
                   request == SIOCATMARK;
    struct socket sock = {0};
    if (is_ours) {
        sock = socket_of(fd);
    }
    bool is_can = sock.protocol && sock.protocol->family == PF_CAN;
    if (is_can && is_of_stamp(request)) {
        return stamp_ioctl(&sock, request, argument);
    }
    if (is_can && !is_of_interface(request)) {
        return refuse("ioctl", ENOTTY, "a CAN socket does not count bytes");
    }
    int result = real()->ioctl(fd, request, argument);
    /* A program may look up interfaces through any socket, not only through a CAN socket. */
    if (result && is_ours && is_of_interface(request) && (errno == ENODEV || is_can)) {
        result = interface_ioctl(request, argument);
    }
    return result;
}
