/* The keeper of the interfaces (see ../shared/link.h). It waits for requests, for input from its sessions, and for the
 * times of restarts. */
#define _GNU_SOURCE
#include "cards.h"

#include "bridge.h"

#include <dirent.h>
#include <errno.h>
#include <linux/can/netlink.h>
#include <poll.h>
#include <stdio.h>
#include <stdlib.h>
#include <string.h>
#include <sys/prctl.h>
#include <sys/socket.h>
#include <sys/stat.h>
#include <sys/un.h>
#include <unistd.h>

/* The maximum number of interfaces that get a session when a program watches all interfaces. The limit exists because
 * the server accepts only 64 sessions. */
#define WATCHED_MOST 16

/* ---- changes ---- */

static int refuse(struct link_reply *reply, int error, const char *text) {
    snprintf(reply->text, sizeof reply->text, "%s", text);
    return reply->error = error;
}

/* Checks that a requested bit rate is the bit rate of the bus. */
static int check_rate(uint32_t asked, uint32_t rate, const char *option, struct link_reply *reply) {
    char text[sizeof reply->text];
    if (!asked || asked == rate) {
        return 0;
    }
    snprintf(text, sizeof text, "the bus has %u bits a second: canbusd serve --%s %u gives it these", rate, option,
             asked);
    return refuse(reply, EINVAL, text);
}

/* Checks the requested bit rates. If the bus has no bit rates, the request changes nothing and the reply contains a
 * note. */
static int check_rates(const struct link_request *asked, const struct link_facts *facts, struct link_reply *reply) {
    if (asked->bitrate && !facts->bitrate) {
        snprintf(reply->text, sizeof reply->text,
                 "the bus has no bit rate, and goes on by --pace: canbusd serve --bitrate %u gives it one",
                 asked->bitrate);
    }
    if (!facts->bitrate) {
        return 0;
    }
    int error = check_rate(asked->bitrate, facts->bitrate, "bitrate", reply);
    return error ? error : check_rate(asked->data_bitrate, facts->data_bitrate, "dbitrate", reply);
}

/* Checks the requested modes. Every interface has FD mode and no other mode. */
static int check_modes(const struct link_request *asked, struct link_reply *reply) {
    uint32_t on = asked->modes & asked->modes_changed, off = ~asked->modes & asked->modes_changed;
    if (on & CAN_CTRLMODE_BERR_REPORTING) {
        return refuse(reply, EOPNOTSUPP, "canbusd serve --report has a bus report each error");
    }
    if (on & ~(uint32_t)CAN_CTRLMODE_FD) {
        return refuse(reply, EOPNOTSUPP, "an interface of canbusd has no such mode");
    }
    return off & CAN_CTRLMODE_FD ? refuse(reply, EOPNOTSUPP, "an interface of canbusd always carries FD frames") : 0;
}

/* Restarts an interface under the same conditions as can_changelink and can_restart_now in the kernel. */
static int restart(struct card *card, struct link_reply *reply) {
    if (card->facts.state == CAN_STATE_STOPPED) {
        return refuse(reply, EINVAL, "the interface is down");
    }
    if (card->facts.restart_ms) {
        return refuse(reply, EINVAL, "restart-ms restarts the interface");
    }
    if (card->facts.state != CAN_STATE_BUS_OFF) {
        return refuse(reply, EBUSY, "the interface is not bus off");
    }
    return card_ask(card, "< restart >") ? 0 : refuse(reply, ETIMEDOUT, "the server does not reply");
}

static int change(struct card *card, const struct link_request *asked, struct link_reply *reply) {
    int error = check_rates(asked, &card->facts, reply);
    error = error ? error : check_modes(asked, reply);
    if (error) {
        return error;
    }
    if (asked->has_restart_ms) {
        card_set_restart(card, asked->restart_ms);
    }
    if (asked->restarts) {
        error = restart(card, reply);
    }
    if (!error && asked->link_changed & IFF_UP) {
        error = card_set_up(card, asked->link_flags & IFF_UP, reply);
    }
    /* Like the kernel, the keeper reports changes of the device as an event. */
    card->has_news |= !error && (asked->has_restart_ms || asked->restarts || asked->bitrate || asked->modes_changed);
    return error;
}

/* ---- watchers ---- */

struct watcher {
    struct watcher *next;
    int fd; /* a copy of the watcher's socket */
    pid_t process;
};
static struct watcher *watchers;

/* Returns whether a process still has this socket open. */
static bool has_socket(pid_t process, int fd) {
    struct stat own, other;
    char path[64];
    snprintf(path, sizeof path, "/proc/%d/fd", process);
    DIR *folder = opendir(path);
    bool is_found = false;
    struct dirent *entry;
    while (folder && !is_found && !fstat(fd, &own) && (entry = readdir(folder))) {
        is_found = !fstatat(dirfd(folder), entry->d_name, &other, 0) && S_ISSOCK(other.st_mode) &&
                   other.st_ino == own.st_ino && other.st_dev == own.st_dev;
    }
    if (folder) {
        closedir(folder);
    }
    return is_found;
}

/* Drops the watchers whose processes have closed their sockets. */
static void drop_watchers(void) {
    for (struct watcher **at = &watchers; *at;) {
        struct watcher *one = *at;
        if (has_socket(one->process, one->fd)) {
            at = &one->next;
            continue;
        }
        *at = one->next;
        close(one->fd);
        free(one);
    }
}

static int watch(int fd, pid_t process, struct link_reply *reply) {
    struct watcher *one = malloc(sizeof *one);
    struct link_reply why = {0};
    drop_watchers();
    if (fd < 0 || !one) {
        free(one);
        return refuse(reply, ENOMEM, "no memory for events");
    }
    *one = (struct watcher){watchers, fd, process};
    watchers = one;
    for (int i = 0; i < WATCHED_MOST; i++) {
        struct link_reply *first = i || why.error ? &(struct link_reply){0} : &why;
        card_of(INTERFACE_FIRST + i, true, first);
    }
    return why.error ? refuse(reply, why.error, why.text) : 0;
}

/* Sends an event to each watcher through the watcher's own socket, as the library sends an answer. */
static void put_event(int index, const struct card *card) {
    struct {
        struct nlmsghdr head;
        struct link_message link;
    } mail;
    link_write(&mail.link, index, &card->facts, 0);
    mail.head = (struct nlmsghdr){.nlmsg_len = (uint32_t)sizeof mail.head + mail.link.head.nlmsg_len,
                                  .nlmsg_type = LINK_EVENT,
                                  .nlmsg_flags = NLM_F_REQUEST};
    drop_watchers();
    for (const struct watcher *one = watchers; one; one = one->next) {
        send(one->fd, &mail, mail.head.nlmsg_len, MSG_DONTWAIT | MSG_NOSIGNAL);
    }
}

/* Returns whether the keeper has any session. */
static bool has_cards(void) {
    struct link_reply ignored;
    for (int i = 0; i < INTERFACE_MOST; i++) {
        if (card_of(INTERFACE_FIRST + i, false, &ignored)) {
            return true;
        }
    }
    return false;
}

/* ---- requests ---- */

/* Writes the current properties of the requested interfaces, except of those that have no session. */
static void look(const struct link_request *asked, struct link_reply *reply) {
    for (int i = 0; i < INTERFACE_MOST; i++) {
        struct link_reply ignored;
        reply->last = card_of(INTERFACE_FIRST + i, false, &ignored) ? INTERFACE_FIRST + i : reply->last;
    }
    for (int i = 0; i < MIN(asked->count, LINK_SEVERAL); i++) {
        struct link_reply ignored;
        struct card *card = card_of(asked->index + i, false, &ignored);
        if (card && card_ask(card, "")) {
            reply->facts[i] = card->facts;
        }
    }
}

static void carry_out(const struct link_request *asked, int fd, pid_t process, struct link_reply *reply) {
    if (asked->kind == LINK_WATCH) {
        watch(fd, asked->process ? asked->process : process, reply);
        return;
    }
    if (fd >= 0) {
        close(fd);
    }
    if (asked->kind == LINK_LOOK) {
        look(asked, reply);
        return;
    }
    struct card *card = card_of(asked->index, true, reply);
    if (card && !card_ask(card, "")) {
        refuse(reply, ETIMEDOUT, "the server does not reply");
    } else if (card && asked->kind == LINK_CHANGE) {
        change(card, asked, reply);
    }
    if (card) {
        *reply->facts = card->facts;
    }
}

/* Reads a request from a connection, and the file descriptor that may come with the request. Returns false if no
 * request arrives within a second. */
static bool read_request(int connection, struct link_request *request, int *fd) {
    union {
        char room[CMSG_SPACE(sizeof(int))];
        struct cmsghdr align;
    } control;
    struct iovec part = {request, sizeof *request};
    struct msghdr message = {
        .msg_iov = &part, .msg_iovlen = 1, .msg_control = &control, .msg_controllen = sizeof control};
    struct pollfd polled = {connection, POLLIN, 0};
    *fd = -1;
    ssize_t length = poll(&polled, 1, 1000) > 0 ? recvmsg(connection, &message, MSG_DONTWAIT | MSG_CMSG_CLOEXEC) : -1;
    const struct cmsghdr *rights = length > 0 ? CMSG_FIRSTHDR(&message) : NULL;
    if (rights && rights->cmsg_type == SCM_RIGHTS) {
        memcpy(fd, CMSG_DATA(rights), sizeof *fd);
    }
    return length == sizeof *request;
}

/* Accepts the next connection, and serves its request if it comes from the same user. */
static void serve(void) {
    static struct link_reply reply;
    struct link_request request;
    struct ucred peer = {.uid = (uid_t)-1};
    int connection = accept4(PROGRAM, NULL, NULL, SOCK_CLOEXEC), fd;
    if (connection < 0) {
        return; /* The process that sent the request is gone. */
    }
    getsockopt(connection, SOL_SOCKET, SO_PEERCRED, &peer, &(socklen_t){sizeof peer});
    if (peer.uid == geteuid() && read_request(connection, &request, &fd)) {
        reply = (struct link_reply){0};
        carry_out(&request, fd, peer.pid, &reply);
        send(connection, &reply, sizeof reply, MSG_DONTWAIT | MSG_NOSIGNAL);
    }
    close(connection);
}

/* ---- the loop ---- */

/* Restarts an interface if its restart is due, and sends the interface's events. Returns when the next restart is due.
 */
static uint64_t do_due(int index, struct card *card) {
    if (card->restart_at <= clock_now()) {
        card->restart_at = NEVER;
        card_ask(card, "< restart >");
    }
    if (card->has_news && watchers && card_ask(card, "")) {
        put_event(index, card);
    }
    card->has_news = false;
    return card->restart_at;
}

static void wait_until(struct pollfd *polled, nfds_t count, uint64_t moment) {
    uint64_t now = clock_now(), left = moment > now ? moment - now : 0;
    struct timespec time = {(time_t)(left / SECOND), (long)(left % SECOND)};
    ppoll(polled, count, moment == NEVER ? NULL : &time, NULL);
}

/* Waits for the next event and handles it. Returns false when the server is gone. */
static bool do_next(void) {
    struct pollfd polled[1 + INTERFACE_MOST] = {{PROGRAM, POLLIN, 0}};
    struct card *of[1 + INTERFACE_MOST];
    struct link_reply ignored;
    nfds_t count = 1;
    uint64_t due = NEVER;
    for (int i = 0; i < INTERFACE_MOST; i++) {
        struct card *card = card_of(INTERFACE_FIRST + i, false, &ignored);
        if (card) {
            due = MIN(due, do_due(INTERFACE_FIRST + i, card));
            of[count] = card;
            polled[count++] = (struct pollfd){card->fd, POLLIN, 0};
            if (card->fd < 0) {
                return false;
            }
        }
    }
    wait_until(polled, count, due);
    for (nfds_t i = 1; i < count; i++) {
        if (polled[i].revents) {
            card_read(of[i]);
        }
    }
    if (polled[0].revents) {
        serve();
    }
    return true;
}

bool keeper_is_asked_for(void) {
    struct sockaddr_un name = {0};
    socklen_t length = sizeof name;
    return !getsockname(PROGRAM, (struct sockaddr *)&name, &length) && name.sun_family == AF_UNIX &&
           !memcmp(name.sun_path + 1, LINK_KEEPER, sizeof LINK_KEEPER - 1);
}

void keeper_run(void) {
    struct pollfd polled = {PROGRAM, POLLIN, 0};
    prctl(PR_SET_NAME, "canbusd-links");
    close(WIRE_MEMORY);
    if (poll(&polled, 1, PATIENCE * 1000) > 0) {
        serve();
    }
    /* The keeper is notified of the server's end only through its sessions. So it exits too when it has no session. */
    while (has_cards() && do_next()) {
    }
}
