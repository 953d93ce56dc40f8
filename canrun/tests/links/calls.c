/* Makes the system calls of the cases, and prints their results. */
#include "links.h"

#include <dirent.h>
#include <regex.h>
#include <stddef.h>
#include <sys/stat.h>

#define IP "/usr/sbin/ip "

/* ---- ip ---- */

/* Runs a command and reads its output, without the notes of canbusd-run. Returns the exit status of the command. */
static int output_of(const char *words, char *room, size_t size) {
    size_t have = 0;
    char line[2048];
    FILE *stream = popen(words, "r");
    room[0] = 0;
    while (stream && fgets(line, sizeof line, stream)) {
        if (strncmp(line, "canbusd-run: note", 17) != 0 && have + strlen(line) < size) {
            have += (size_t)sprintf(room + have, "%s", line);
        }
    }
    int status = stream ? pclose(stream) : -1;
    return WIFEXITED(status) ? WEXITSTATUS(status) : -1;
}

static int output_of_ip(const char *words, char *room, size_t size) {
    char line[512];
    snprintf(line, sizeof line, IP "%s 2>&1", words);
    return output_of(line, room, size);
}

void shows(const char *words, const char *expression) {
    static char text[65536];
    regex_t pattern;
    regmatch_t match;
    output_of_ip(words, text, sizeof text);
    regcomp(&pattern, expression, REG_EXTENDED | REG_NEWLINE);
    bool is_found = !regexec(&pattern, text, 1, &match, 0);
    say(" %.*s", is_found ? (int)(match.rm_eo - match.rm_so) : 1, is_found ? text + match.rm_so : "-");
    regfree(&pattern);
}

void status_of(const char *words) {
    static char text[65536];
    say(" %d", output_of_ip(words, text, sizeof text));
}

void shell(const char *words) {
    static char text[65536];
    int status = output_of(words, text, sizeof text);
    text[strcspn(text, "\n")] = 0;
    say(" %s %d", text, status);
}

void reset(void) {
    static char text[65536];
    output_of_ip("link set can2 down", text, sizeof text);
    output_of_ip("link set can2 type can bitrate 500000 restart-ms 0", text, sizeof text);
    output_of_ip("link set can2 up", text, sizeof text);
}

/* ---- messages ---- */

int route(unsigned groups) {
    struct sockaddr_nl address = {.nl_family = AF_NETLINK, .nl_groups = groups};
    int fd = socket(AF_NETLINK, SOCK_RAW | SOCK_CLOEXEC, NETLINK_ROUTE);
    if (fd < 0 || bind(fd, (struct sockaddr *)&address, sizeof address)) {
        say(" no socket %s", strerrorname_np(errno));
    }
    return fd;
}

struct asked *message_of(unsigned type, unsigned flags) {
    static struct asked all[8];
    static unsigned next;
    struct asked *one = &all[next % 8];
    *one = (struct asked){.head = {.nlmsg_len = offsetof(struct asked, attributes),
                                   .nlmsg_type = (uint16_t)type,
                                   .nlmsg_flags = (uint16_t)(NLM_F_REQUEST | flags),
                                   .nlmsg_seq = 100 + next++}};
    return one;
}

struct asked *get_link(unsigned flags) {
    return message_of(RTM_GETLINK, flags);
}

struct asked *new_link(unsigned flags) {
    return message_of(RTM_NEWLINK, NLM_F_ACK | flags);
}

static struct nlattr *put_attribute(struct asked *asked, unsigned type, const void *value, size_t length) {
    struct nlattr *one = (void *)((char *)asked + asked->head.nlmsg_len);
    *one = (struct nlattr){(uint16_t)(sizeof *one + length), (uint16_t)type};
    memcpy(one + 1, value, length);
    asked->head.nlmsg_len += (uint32_t)(sizeof *one + NLMSG_ALIGN(length));
    return one;
}

struct asked *with_name(struct asked *asked, const char *name) {
    put_attribute(asked, IFLA_IFNAME, name, strlen(name) + 1);
    return asked;
}

struct asked *indexed(struct asked *asked, const char *name) {
    asked->link.ifi_index = (int)if_nametoindex(name);
    return asked;
}

struct asked *number(struct asked *asked, unsigned type, uint32_t value) {
    put_attribute(asked, type, &value, sizeof value);
    return asked;
}

struct asked *text(struct asked *asked, unsigned type, const char *value) {
    put_attribute(asked, type, value, strlen(value));
    return asked;
}

struct asked *device(struct asked *asked, const char *name, unsigned type, const void *value, size_t length) {
    struct nlattr *info = put_attribute(asked, IFLA_LINKINFO, "", 0);
    put_attribute(asked, IFLA_INFO_KIND, name, strlen(name));
    if (type) {
        struct nlattr *data = put_attribute(asked, IFLA_INFO_DATA, "", 0);
        put_attribute(asked, type, value, length);
        data->nla_len = (uint16_t)((char *)asked + asked->head.nlmsg_len - (char *)data);
    }
    info->nla_len = (uint16_t)((char *)asked + asked->head.nlmsg_len - (char *)info);
    return asked;
}

struct asked *kind(struct asked *asked, const char *name) {
    return device(asked, name, 0, NULL, 0);
}

struct asked *restart_ms(struct asked *asked, uint32_t value) {
    return device(asked, "can", IFLA_CAN_RESTART_MS, &value, sizeof value);
}

struct asked *bit_rate(struct asked *asked, uint32_t value) {
    struct can_bittiming timing = {.bitrate = value};
    return device(asked, "can", IFLA_CAN_BITTIMING, &timing, sizeof timing);
}

struct asked *modes(struct asked *asked, uint32_t mask, uint32_t flags) {
    struct can_ctrlmode mode = {mask, flags};
    return device(asked, "can", IFLA_CAN_CTRLMODE, &mode, sizeof mode);
}

struct asked *flags(struct asked *asked, unsigned value, unsigned change) {
    asked->link.ifi_flags = value;
    asked->link.ifi_change = change;
    return asked;
}

/* ---- answers ---- */

static char received[65536];
static uint32_t sequence;

static const struct nlattr *attribute_in(const void *from, size_t length, unsigned type) {
    const char *at = from, *end = at + length;
    while (at + sizeof(struct nlattr) <= end) {
        const struct nlattr *one = (const void *)at;
        if ((one->nla_type & NLA_TYPE_MASK) == type) {
            return one;
        }
        at += NLMSG_ALIGN(one->nla_len);
    }
    return NULL;
}

static const struct nlattr *attribute_of(const struct asked *link, unsigned type) {
    return attribute_in(link->attributes, link->head.nlmsg_len - offsetof(struct asked, attributes), type);
}

static const struct nlattr *inner(const struct nlattr *nest, unsigned type) {
    return nest ? attribute_in(nest + 1, nest->nla_len - sizeof *nest, type) : NULL;
}

static const char *name_in(const struct asked *link) {
    const struct nlattr *name = attribute_of(link, IFLA_IFNAME);
    return name ? (const char *)(name + 1) : "none";
}

/* Prints `,pid` if the message is for another socket, and `,seq` if it does not belong to the last request. */
static void say_odd(int fd, const struct nlmsghdr *head) {
    struct sockaddr_nl own = {0};
    socklen_t length = sizeof own;
    getsockname(fd, (struct sockaddr *)&own, &length);
    say("%s%s", head->nlmsg_pid == own.nl_pid ? "" : ",pid", head->nlmsg_seq == sequence ? "" : ",seq");
}

static void say_message(int fd, const struct nlmsghdr *head) {
    const struct nlmsgerr *error = (const struct nlmsgerr *)(head + 1);
    switch (head->nlmsg_type) {
    case NLMSG_ERROR:
        say(" %s", error->error ? strerrorname_np(-error->error) : "ACK");
        say("%s", error->msg.nlmsg_seq == head->nlmsg_seq ? "" : ",of another");
        break;
    case RTM_NEWLINK: say(" link %s", name_in((const struct asked *)head)); break;
    case NLMSG_DONE: say(" done"); break;
    default: say(" type %d", head->nlmsg_type);
    }
    say_odd(fd, head);
}

/* Reads a datagram if one arrives soon. Returns its length, or 0. */
static size_t receive(int fd) {
    struct pollfd polled = {fd, POLLIN, 0};
    ssize_t length = poll(&polled, 1, quiet) > 0 ? recv(fd, received, sizeof received, MSG_DONTWAIT) : -1;
    return length < 0 ? 0 : (size_t)length;
}

void next(int fd) {
    size_t length = receive(fd);
    if (!length) {
        say(" nothing");
    }
    for (size_t at = 0; at + sizeof(struct nlmsghdr) <= length;) {
        const struct nlmsghdr *head = (const void *)(received + at);
        say_message(fd, head);
        at += NLMSG_ALIGN(head->nlmsg_len);
    }
}

void tells(int fd, struct asked *asked) {
    sequence = asked->head.nlmsg_seq;
    ssize_t sent = send(fd, asked, asked->head.nlmsg_len, 0);
    if (sent != (ssize_t)asked->head.nlmsg_len) {
        say(" sent %d %s", (int)sent, strerrorname_np(errno));
    }
}

void answers(int fd, struct asked *asked) {
    tells(fd, asked);
    next(fd);
}

/* Requests a link by its name and reads the answer. Returns NULL if there is no such link. */
static const struct asked *link_of(const char *name) {
    int fd = route(0);
    tells(fd, with_name(get_link(0), name));
    size_t length = receive(fd);
    close(fd);
    const struct asked *link = (const struct asked *)received;
    if (length < sizeof link->head + sizeof link->link || link->head.nlmsg_type != RTM_NEWLINK) {
        say(" no link");
        return NULL;
    }
    return link;
}

static void say_attribute(const struct nlattr *one) {
    const unsigned char *at = (const unsigned char *)(one + 1);
    if (!one) {
        say(" none");
        return;
    }
    say(" ");
    for (size_t i = 0; i < one->nla_len - sizeof *one; i++) {
        say("%02X", at[i]);
    }
}

void value(const char *name, unsigned type) {
    const struct asked *link = link_of(name);
    if (link) {
        say_attribute(attribute_of(link, type));
    }
}

void device_value(const char *name, unsigned type) {
    const struct asked *link = link_of(name);
    if (link) {
        say_attribute(inner(inner(attribute_of(link, IFLA_LINKINFO), IFLA_INFO_DATA), type));
    }
}

void rate_of(const char *name) {
    const struct asked *link = link_of(name);
    const struct nlattr *data = link ? inner(attribute_of(link, IFLA_LINKINFO), IFLA_INFO_DATA) : NULL;
    const struct nlattr *timing = inner(data, IFLA_CAN_BITTIMING);
    say(" %u", timing ? ((const struct can_bittiming *)(timing + 1))->bitrate : 0);
}

void head_of(const char *name) {
    const struct asked *link = link_of(name);
    if (link) {
        say(" %d %d %X %d", link->link.ifi_family, link->link.ifi_type, link->link.ifi_flags, link->head.nlmsg_flags);
        say(" %d", (unsigned)link->link.ifi_index == if_nametoindex(name));
    }
}

void dumps(int fd, struct asked *asked, const char *name) {
    int found = 0, multi = 0, links = 0;
    bool is_done = false;
    tells(fd, asked);
    for (size_t length; !is_done && (length = receive(fd));) {
        for (size_t at = 0; at + sizeof(struct nlmsghdr) <= length;) {
            const struct nlmsghdr *head = (const void *)(received + at);
            if (head->nlmsg_type == RTM_NEWLINK) {
                links++;
                multi += (head->nlmsg_flags & NLM_F_MULTI) != 0;
                found += !strcmp(name_in((const void *)head), name);
            } else {
                say_message(fd, head);
            }
            is_done |= head->nlmsg_type == NLMSG_DONE || head->nlmsg_type == NLMSG_ERROR;
            at += NLMSG_ALIGN(head->nlmsg_len);
        }
    }
    say(" %d%s%s", found, links == multi ? "" : " not multi", is_done ? "" : " no end");
}

void events_of(int fd, const char *name) {
    for (size_t length; (length = receive(fd));) {
        const struct asked *link = (const struct asked *)received;
        if (link->head.nlmsg_type == RTM_NEWLINK && !strcmp(name_in(link), name)) {
            say(" %X,%u,%u", link->link.ifi_flags, link->head.nlmsg_pid, link->head.nlmsg_seq);
        }
    }
}

/* ---- files ---- */

void file(const char *path) {
    char text[256];
    int fd = open(path, O_RDONLY | O_CLOEXEC);
    ssize_t length = fd < 0 ? -1 : read(fd, text, sizeof text - 1);
    if (length < 0) {
        say(" %s", strerrorname_np(errno));
    } else {
        text[length] = 0;
        text[strcspn(text, "\n")] = 0;
        say(" %s", text);
    }
}

void listed(const char *path, const char *name) {
    DIR *folder = opendir(path);
    int found = 0;
    for (struct dirent *one; folder && (one = readdir(folder));) {
        found += !strcmp(one->d_name, name);
    }
    say(" %d", folder ? found : -1);
}
