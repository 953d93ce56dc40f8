/* The interfaces of the server as netlink links: parses the program's messages and builds the answers. */
#define _GNU_SOURCE
#include "links.h"

#include "keeper.h"
#include "library.h"

#include <errno.h>
#include <linux/can/netlink.h>
#include <pthread.h>
#include <string.h>
#include <sys/syscall.h>

/* The maximum number of bytes of a refused request that are returned with the refusal. */
#define ECHOED 1024

/* ---- attributes ---- */

/* Returns the attribute of this type, or NULL if there is none. If there are several, returns the last one. */
static const struct nlattr *find(const void *attributes, size_t length, unsigned type) {
    const char *at = attributes;
    const struct nlattr *found = NULL;
    while (length >= sizeof *found) {
        const struct nlattr *one = (const void *)at;
        if (one->nla_len < sizeof *one || one->nla_len > length) {
            break;
        }
        size_t step = MIN((size_t)NLMSG_ALIGN(one->nla_len), length);
        found = (one->nla_type & NLA_TYPE_MASK) == type ? one : found;
        at += step;
        length -= step;
    }
    return found;
}

static size_t length_of(const struct nlattr *one) {
    return one ? one->nla_len - sizeof *one : 0;
}

static const struct nlattr *find_in(const struct nlattr *nest, unsigned type) {
    return nest ? find(nest + 1, length_of(nest), type) : NULL;
}

/* Copies a value of this length. Returns false if the attribute is missing or too short. */
static bool get(const struct nlattr *one, void *value, size_t length) {
    if (length_of(one) < length) {
        return false;
    }
    memcpy(value, one + 1, length);
    return true;
}

static bool is_text(const struct nlattr *one, const char *text) {
    return one && strlen(text) <= length_of(one) && !memcmp(one + 1, text, strlen(text)) &&
           (length_of(one) == strlen(text) || !((const char *)(one + 1))[strlen(text)]);
}

/* ---- questions ---- */

struct question {
    const struct nlmsghdr *head;
    struct ifinfomsg link;
    const void *attributes;
    size_t length; /* the length of the attributes */
};

static const struct nlattr *attribute(const struct question *question, unsigned type) {
    return find(question->attributes, question->length, type);
}

/* Parses a message about links. Returns false for a message about something else. A dump request may have a short
 * header. */
static bool read_question(const struct nlmsghdr *head, struct question *question) {
    bool is_of_link = head->nlmsg_type == RTM_GETLINK || head->nlmsg_type == RTM_NEWLINK ||
                      head->nlmsg_type == RTM_SETLINK || head->nlmsg_type == RTM_DELLINK;
    size_t body = head->nlmsg_len - sizeof *head;
    if (!is_of_link || body < sizeof(struct rtgenmsg)) {
        return false;
    }
    *question = (struct question){.head = head};
    memcpy(&question->link, head + 1, MIN(body, sizeof question->link));
    if (body > sizeof question->link) {
        question->attributes = (const char *)(head + 1) + sizeof question->link;
        question->length = body - sizeof question->link;
    }
    return true;
}

/* Returns the index of the server's interface that a message specifies by index or name, or 0 if there is none. The
 * kernel's own interfaces take precedence. */
static int index_asked(const struct question *question) {
    char name[IFNAMSIZ] = "";
    if (question->link.ifi_index) {
        return interface_name(question->link.ifi_index, name) ? question->link.ifi_index : 0;
    }
    const struct nlattr *named = attribute(question, IFLA_IFNAME);
    named = named ? named : attribute(question, IFLA_ALT_IFNAME);
    if (!named) {
        return 0;
    }
    memcpy(name, named + 1, strnlen((const char *)(named + 1), MIN(length_of(named), sizeof name - 1)));
    return real()->if_nametoindex(name) ? 0 : interface_index(name);
}

bool links_are_asked(const struct nlmsghdr *asked) {
    struct question question;
    uint32_t master = 0;
    if (asked->nlmsg_type != RTM_GETLINK || !(asked->nlmsg_flags & NLM_F_DUMP) || !read_question(asked, &question) ||
        question.link.ifi_family == AF_BRIDGE) {
        return false;
    }
    const struct nlattr *kind = find_in(attribute(&question, IFLA_LINKINFO), IFLA_INFO_KIND);
    get(attribute(&question, IFLA_MASTER), &master, sizeof master);
    return !master && (!kind || is_text(kind, "can"));
}

bool links_are_all(const struct nlmsghdr *asked) {
    struct question question;
    return read_question(asked, &question) && find_in(attribute(&question, IFLA_LINKINFO), IFLA_INFO_KIND);
}

bool addresses_are_asked(const struct nlmsghdr *asked) {
    struct ifaddrmsg address;
    char name[IFNAMSIZ];
    if (asked->nlmsg_type != RTM_GETADDR || asked->nlmsg_len < sizeof *asked + sizeof address) {
        return false;
    }
    memcpy(&address, asked + 1, sizeof address);
    return asked->nlmsg_flags & NLM_F_DUMP && interface_name((int)address.ifa_index, name);
}

/* ---- answers ---- */

/* Adds the result of a request: an errno, or 0 if the program requested an acknowledgement. The string `why` is used in
 * an extended acknowledgement, in the form that the kernel sends. */
static void put_verdict(struct outgoing *out, const struct nlmsghdr *asked, int error, const char *why) {
    struct {
        struct nlmsghdr head;
        struct nlmsgerr error;
        char more[ECHOED + sizeof(struct nlattr) + sizeof((struct link_reply *)0)->text];
    } verdict = {.error = {.error = -error, .msg = *asked}};
    char *end = verdict.more;
    size_t echoed = asked->nlmsg_len - sizeof *asked;
    if (!error && !(asked->nlmsg_flags & NLM_F_ACK)) {
        return;
    }
    verdict.head = (struct nlmsghdr){.nlmsg_type = NLMSG_ERROR, .nlmsg_seq = asked->nlmsg_seq};
    if (error && echoed <= ECHOED) {
        memcpy(end, asked + 1, echoed);
        end += NLMSG_ALIGN(echoed);
    } else {
        verdict.head.nlmsg_flags |= NLM_F_CAPPED;
    }
    if (error && *why && out->explains) {
        struct nlattr text = {(uint16_t)(sizeof text + strlen(why) + 1), NLMSGERR_ATTR_MSG};
        verdict.head.nlmsg_flags |= NLM_F_ACK_TLVS;
        memcpy(end, &text, sizeof text);
        memcpy(end + sizeof text, why, strlen(why) + 1);
        end += NLMSG_ALIGN(text.nla_len);
    }
    verdict.head.nlmsg_len = (uint32_t)(end - (char *)&verdict);
    mail_put(out, LINK_ANSWER, &verdict.head, &verdict, verdict.head.nlmsg_len);
}

/* Adds the message that describes an interface. If the server does not reply, the message contains no properties. */
static void put_link(struct outgoing *out, const struct nlmsghdr *asked, int index) {
    struct link_message message;
    struct link_reply reply;
    if (keeper_ask(&(struct link_request){.kind = LINK_ASK, .index = index, .count = 1}, -1, &reply)) {
        int before = errno;
        refuse("netlink", reply.error, reply.text);
        errno = before;
        reply.facts->is_known = false;
    }
    link_write(&message, index, reply.facts, (uint32_t)queue_length());
    message.head.nlmsg_seq = asked->nlmsg_seq;
    mail_put(out, LINK_ANSWER, &message.head, &message, message.head.nlmsg_len);
}

size_t links_dump(const struct nlmsghdr *asked, struct dump *dump, char *room, size_t size) {
    struct link_message message;
    struct link_reply reply = {0};
    char name[IFNAMSIZ];
    bool is_chosen = links_are_all(asked);
    uint32_t queue = (uint32_t)queue_length();
    size_t done = 0;
    if (!dump->has_asked || dump->next <= dump->last) {
        struct link_request request = {.kind = LINK_LOOK, .index = dump->next, .count = LINK_SEVERAL};
        keeper_ask(&request, -1, &reply);
        dump->last = reply.last;
        dump->has_asked = true;
    }
    for (int i = 0; i < LINK_SEVERAL && interface_name(dump->next, name); i++) {
        link_write(&message, dump->next, &reply.facts[i], queue);
        if (done && done + message.head.nlmsg_len > size) {
            break;
        }
        message.head.nlmsg_seq = asked->nlmsg_seq;
        message.head.nlmsg_flags = NLM_F_MULTI | (is_chosen ? NLM_F_DUMP_FILTERED : 0);
        memcpy(room + done, &message, message.head.nlmsg_len);
        done += message.head.nlmsg_len;
        dump->next++;
    }
    return done;
}

struct link_facts links_facts(int index) {
    struct link_reply reply;
    keeper_ask(&(struct link_request){.kind = LINK_LOOK, .index = index, .count = 1}, -1, &reply);
    return *reply.facts;
}

/* ---- changes ---- */

/* Returns the requested bit rate. If the request does not contain it directly, it is computed from the time quantum and
 * the number of quanta per bit. */
static uint32_t rate_asked(const struct nlattr *data, unsigned type) {
    struct can_bittiming timing;
    if (!get(find_in(data, type), &timing, sizeof timing)) {
        return 0;
    }
    uint64_t bit = (uint64_t)timing.tq * (1 + timing.prop_seg + timing.phase_seg1 + timing.phase_seg2);
    return timing.bitrate || !timing.tq ? timing.bitrate : (uint32_t)(1000000000 / bit);
}

/* Prints a note for the user, but not the same note twice in a row. */
static void note(const char *text) {
    static pthread_mutex_t lock = PTHREAD_MUTEX_INITIALIZER;
    static char said[sizeof((struct link_reply *)0)->text];
    char line[256];
    pthread_mutex_lock(&lock);
    bool is_news = *text && strcmp(said, text) != 0;
    if (is_news) {
        strcpy(said, text);
    }
    pthread_mutex_unlock(&lock);
    if (is_news) {
        int length = snprintf(line, sizeof line, "canbusd-run: note: %s\n", text);
        syscall(SYS_write, STDERR_FILENO, line, (size_t)length);
    }
}

/* Makes the keeper perform a change. Returns an errno with the reason in the reply, or 0. */
static int ask_for_change(const struct link_request *request, struct link_reply *reply) {
    int error = keeper_ask(request, -1, reply);
    if (!error) {
        note(reply->text);
    }
    return error;
}

/* Refuses changes of properties that only the server can set, such as names and queue lengths. Returns an errno with
 * the reason in `why`, or 0. */
static int check_fixed(const struct question *question, int index, char *why) {
    static const struct {
        unsigned type;
        const char *why;
    } fixed[] = {{IFLA_MTU, "the MTU of an interface of canbusd is 72"},
                 {IFLA_TXQLEN, "canbusd serve --txqueue says how long transmit queues are"},
                 {IFLA_MASTER, "an interface of canbusd has no master"},
                 {IFLA_NET_NS_PID, "an interface of canbusd is in no namespace"},
                 {IFLA_NET_NS_FD, "an interface of canbusd is in no namespace"},
                 {IFLA_ADDRESS, "an interface of CAN has no address"}};
    char name[IFNAMSIZ];
    const struct nlattr *named = attribute(question, IFLA_IFNAME);
    interface_name(index, name);
    uint32_t number;
    for (size_t i = 0; i < sizeof fixed / sizeof *fixed; i++) {
        const struct nlattr *one = attribute(question, fixed[i].type);
        bool is_same =
            (fixed[i].type == IFLA_MTU && get(one, &number, sizeof number) && number == CANFD_MTU) ||
            (fixed[i].type == IFLA_TXQLEN && get(one, &number, sizeof number) && number == (uint32_t)queue_length());
        if (one && !is_same) {
            strcpy(why, fixed[i].why);
            return EOPNOTSUPP;
        }
    }
    if (named && !is_text(named, name)) {
        strcpy(why, "canbusd serve names interfaces");
        return EOPNOTSUPP;
    }
    return 0;
}

/* Returns the flags that a request changes. As in the kernel, flags that are not 0 change all flags if there is no
 * mask. */
static uint32_t flags_changed(const struct ifinfomsg *link) {
    return link->ifi_flags && !link->ifi_change ? UINT32_MAX : link->ifi_change;
}

/* Performs a request to change an interface. Returns an errno with the reason in the reply, or 0. */
static int change(const struct question *question, int index, struct link_reply *reply) {
    /* The kernel accepts IFLA_LINKINFO only in RTM_NEWLINK. */
    bool has_info = question->head->nlmsg_type == RTM_NEWLINK;
    const struct nlattr *info = has_info ? attribute(question, IFLA_LINKINFO) : NULL;
    const struct nlattr *data = find_in(info, IFLA_INFO_DATA);
    const struct nlattr *kind = find_in(info, IFLA_INFO_KIND);
    struct can_ctrlmode modes = {0};
    uint32_t number;
    *reply = (struct link_reply){0};
    if ((question->head->nlmsg_flags & NLM_F_EXCL) && question->head->nlmsg_flags & NLM_F_CREATE) {
        note("ip link add: the server has this interface already");
        return 0;
    }
    if (data && !is_text(kind, "can")) {
        strcpy(reply->text, "an interface of canbusd is of type can");
        return EOPNOTSUPP;
    }
    int error = check_fixed(question, index, reply->text);
    if (error) {
        return error;
    }
    get(find_in(data, IFLA_CAN_CTRLMODE), &modes, sizeof modes);
    struct link_request request = {.kind = LINK_CHANGE,
                                   .index = index,
                                   .count = 1,
                                   .bitrate = rate_asked(data, IFLA_CAN_BITTIMING),
                                   .data_bitrate = rate_asked(data, IFLA_CAN_DATA_BITTIMING),
                                   .modes = modes.flags,
                                   .modes_changed = modes.mask,
                                   .link_flags = question->link.ifi_flags,
                                   .link_changed = flags_changed(&question->link),
                                   .restarts = find_in(data, IFLA_CAN_RESTART)};
    request.has_restart_ms = get(find_in(data, IFLA_CAN_RESTART_MS), &number, sizeof number);
    request.restart_ms = request.has_restart_ms ? number : 0;
    return ask_for_change(&request, reply);
}

int links_set_up(int index, bool is_up) {
    struct link_request request = {
        .kind = LINK_CHANGE, .index = index, .count = 1, .link_flags = is_up ? IFF_UP : 0, .link_changed = IFF_UP};
    struct link_reply reply;
    return ask_for_change(&request, &reply) ? refuse("ioctl", reply.error, reply.text) : 0;
}

/* If a supervisor (see ../command/static.h) uses this thread to make calls for a process, the ID of that process;
 * otherwise 0. */
static __thread pid_t served;

EXPORT void canbusd_run_serves(pid_t process) {
    served = process;
}

int links_watch(int fd) {
    struct link_reply reply;
    return keeper_ask(&(struct link_request){.kind = LINK_WATCH, .process = served}, fd, &reply)
               ? refuse("netlink", reply.error, reply.text)
               : 0;
}

bool links_answer(const struct nlmsghdr *asked, struct outgoing *out) {
    struct question question;
    struct link_reply reply = {0};
    int index = read_question(asked, &question) ? index_asked(&question) : 0;
    bool is_get = asked->nlmsg_type == RTM_GETLINK;
    if (!index || (is_get && asked->nlmsg_flags & NLM_F_DUMP)) {
        return false;
    }
    if (is_get) {
        put_link(out, asked, index);
    }
    /* Like a hardware interface, an interface of the server cannot be removed, but a request to remove it is not an
     * error. */
    int error = is_get || asked->nlmsg_type == RTM_DELLINK ? 0 : change(&question, index, &reply);
    if (error) {
        int before = errno;
        refuse("netlink", error, reply.text);
        errno = before;
    }
    put_verdict(out, asked, error, reply.text);
    return true;
}
