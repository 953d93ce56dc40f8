/* Sends a request to the bridge of a socket and waits for the reply. Each reply comes on a separate pipe and the
 * library keeps no state, so any number of threads and processes can send requests at the same time. */
#define _GNU_SOURCE
#include "library.h"

#include <errno.h>
#include <fcntl.h>
#include <string.h>
#include <sys/syscall.h>
#include <unistd.h>

static const char GONE[] = "the server is gone";

int refuse_unsent(const char *what, int error) {
    return error == EPIPE || error == ECONNRESET ? refuse(what, ENXIO, GONE)
                                                 : refuse(what, error, "the request did not reach the bridge");
}

int put_request(int fd, int with, const struct wire_request *request, const struct iovec *data, size_t pieces) {
    struct iovec parts[1 + pieces];
    union {
        char room[CMSG_SPACE(sizeof(int))];
        struct cmsghdr align;
    } control = {.room = {0}};
    parts[0] = (struct iovec){(void *)request, sizeof *request};
    if (pieces) {
        memcpy(parts + 1, data, pieces * sizeof *data);
    }
    struct msghdr message = {
        .msg_iov = parts, .msg_iovlen = 1 + pieces, .msg_control = &control, .msg_controllen = sizeof control};
    struct cmsghdr *rights = CMSG_FIRSTHDR(&message);
    rights->cmsg_level = SOL_SOCKET;
    rights->cmsg_type = SCM_RIGHTS;
    rights->cmsg_len = CMSG_LEN(sizeof(int));
    memcpy(CMSG_DATA(rights), &with, sizeof(int));
    /* The bridge reads requests at once, so the socket soon has room. This call therefore waits even for a program that
     * does not want to wait. */
    return syscall(SYS_sendmsg, fd, &message, MSG_NOSIGNAL) >= 0 ? 0 : errno;
}

/* A request that waits for its reply. */
struct asked {
    int fd, reply_from;
    const char *what;
    bool may_end;        /* a signal ends the wait */
    bool is_interrupted; /* a signal arrived whose handler has no SA_RESTART */
};

/* Asks the bridge to end the wait of a write. If the bridge gets this request too late, the write has already been done
 * and the reply reports it. */
static void cancel(struct asked *asked) {
    struct wire_request request = {.kind = WIRE_CANCEL};
    while (put_request(asked->fd, asked->reply_from, &request, NULL, 0) == EINTR) {
    }
    asked->may_end = false;
}

/* Reads `length` bytes, or fewer at the end of the pipe. After a signal it continues to read, because the reply
 * contains the result of the request. If the signal handler has SA_RESTART, the kernel itself continues the read. */
static size_t read_whole(struct asked *asked, void *data, size_t length) {
    size_t done = 0;
    while (done < length) {
        long part = syscall(SYS_read, asked->reply_from, (char *)data + done, length - done);
        if (part > 0) {
            done += (size_t)part;
        } else if (part == 0 || errno != EINTR) {
            break;
        } else if (asked->may_end) {
            asked->is_interrupted = true;
            cancel(asked);
        }
    }
    return done;
}

static int get_reply(struct asked *asked, struct answer *answer) {
    struct wire_reply head;
    char text[256] = "";
    if (read_whole(asked, &head, sizeof head) < sizeof head) {
        return refuse(asked->what, ENXIO, GONE);
    }
    if (head.error) {
        read_whole(asked, text, MIN(head.length, sizeof text - 1));
        return refuse(asked->what, head.error, text);
    }
    if (answer) {
        answer->value = head.value;
        answer->length = head.length;
        read_whole(asked, answer->data, MIN(head.length, answer->room));
    }
    return 0;
}

int ask(int fd, const char *what, const struct wire_request *request, const struct iovec *data, size_t pieces,
        struct answer *answer) {
    int ends[2], before = errno;
    if (syscall(SYS_pipe2, ends, O_CLOEXEC)) {
        return refuse(what, errno, "there is no descriptor for the reply");
    }
    struct asked asked = {.fd = fd, .reply_from = ends[0], .what = what, .may_end = request->kind == WIRE_SEND};
    struct wait *wait = asked.may_end && request->number == WIRE_WAIT ? wait_begin(fd, ends[0]) : NULL;
    int error;
    while ((error = put_request(fd, ends[1], request, data, pieces)) == EINTR && !asked.may_end) {
    }
    syscall(SYS_close, ends[1]);
    if (!error && wait_is_over(wait)) {
        cancel(&asked);
    }
    int result = error ? refuse_unsent(what, error) : get_reply(&asked, answer);
    error = result ? errno : before;
    /* A program whose handler has SA_RESTART does not expect EINTR, so the write fails with ENOBUFS, as it does without
     * --wait. */
    error = wait_end(wait) && result && error == EINTR && !asked.is_interrupted ? ENOBUFS : error;
    syscall(SYS_close, ends[0]);
    errno = error;
    return result;
}

int take_error(int fd) {
    struct answer answer = {0};
    int before = errno;
    int error = ask(fd, "getsockopt", &(struct wire_request){.kind = WIRE_ERROR}, NULL, 0, &answer) ? 0 : answer.value;
    errno = before;
    return error;
}
