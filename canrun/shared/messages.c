/* Converts frames to and from the text messages of the server's raw mode: see messages.h. The manual page canbusd.1
 * explains the messages. */
#include "messages.h"

#include <string.h>
#include <sys/param.h>

static const char DIGITS[] = "0123456789ABCDEF";
/* Written by scripts/words: lengths of FD frames in C */
static const uint8_t FD_LENGTHS[] = {0, 1, 2, 3, 4, 5, 6, 7, 8, 12, 16, 20, 24, 32, 48, 64};
/* end of words */

unsigned fd_length(unsigned length) {
    unsigned at = 0;
    while (FD_LENGTHS[at] < length && at < sizeof FD_LENGTHS - 1) {
        at++;
    }
    return FD_LENGTHS[at];
}

static char *put_text(char *at, const char *text) {
    size_t length = strlen(text);
    memcpy(at, text, length);
    return at + length;
}

static char *put_hex(char *at, uint32_t number, int digits) {
    for (int i = digits - 1; i >= 0; i--) {
        *at++ = DIGITS[number >> (4 * i) & 15];
    }
    return at;
}

static char *put_decimal(char *at, unsigned number) {
    if (number >= 10) {
        *at++ = DIGITS[number / 10];
    }
    *at++ = DIGITS[number % 10];
    return at;
}

void message_of_frame(char text[COMMAND], const struct canfd_frame *frame, bool is_fd) {
    bool is_long = frame->can_id & CAN_EFF_FLAG, is_remote = !is_fd && frame->can_id & CAN_RTR_FLAG;
    unsigned length = is_fd ? fd_length(frame->len) : frame->len;
    unsigned flags = is_fd ? frame->flags & (CANFD_BRS | CANFD_ESI) : 0;
    char *at = put_text(text, is_remote ? "< sendrtr " : flags ? "< sendfdx " : is_fd ? "< sendfd " : "< send ");
    if (flags) {
        at = put_decimal(at, flags);
        *at++ = ' ';
    }
    at = put_hex(at, frame->can_id & (is_long ? CAN_EFF_MASK : CAN_SFF_MASK), is_long ? 8 : 3);
    *at++ = ' ';
    at = put_decimal(at, length);
    for (unsigned i = 0; !is_remote && i < length; i++) {
        *at++ = ' ';
        at = put_hex(at, i < frame->len ? frame->data[i] : 0, 2);
    }
    at = put_text(at, " >");
    *at = 0;
}

/* Returns the value of a hexadecimal digit, or -1 for any other character. */
static int digit(char one) {
    return one >= '0' && one <= '9'   ? one - '0'
           : one >= 'A' && one <= 'F' ? one - 'A' + 10
           : one >= 'a' && one <= 'f' ? one - 'a' + 10
                                      : -1;
}

/* Reads up to 8 hexadecimal digits, and a space if one follows. Returns the number of digits. */
static int get_hex(const char **at, uint32_t *number) {
    int count = 0;
    for (*number = 0; digit(**at) >= 0 && count < 8; count++, (*at)++) {
        *number = *number << 4 | (uint32_t)digit(**at);
    }
    *at += **at == ' ';
    return count;
}

bool message_number(const char **at, uint64_t *number) {
    const char *from = *at;
    for (*number = 0; **at >= '0' && **at <= '9' && *at - from < 12; (*at)++) {
        *number = *number * 10 + (uint64_t)(**at - '0');
    }
    return *at != from;
}

/* Reads a timestamp in the form SECONDS.MICROSECONDS. */
static bool get_moment(const char **at, uint64_t *nanoseconds) {
    uint64_t seconds, micros;
    if (!message_number(at, &seconds) || **at != '.') {
        return false;
    }
    (*at)++;
    if (!message_number(at, &micros)) {
        return false;
    }
    *at += **at == ' ';
    *nanoseconds = seconds * SECOND + micros * 1000;
    return true;
}

static void get_data(const char **at, struct canfd_frame *frame) {
    while (frame->len < CANFD_MAX_DLEN && digit((*at)[0]) >= 0 && digit((*at)[1]) >= 0) {
        frame->data[frame->len++] = (uint8_t)(digit((*at)[0]) << 4 | digit((*at)[1]));
        *at += 2;
    }
}

/* Reads the flags of an FD frame: a digit, and a space if one follows. */
static void get_flags(const char **at, struct canfd_frame *frame) {
    if (**at >= '0' && **at <= '3') {
        frame->flags |= (uint8_t)(**at - '0');
        *at += 1;
        *at += **at == ' ';
    }
}

/* Reads the origin of a frame: whether the frame came from the same interface or from another one, and the frame's
 * number on the interface that sent it. Error message frames have no origin. */
static void get_origin(const char *at, struct item *item) {
    static const char same[] = "same ", other[] = "other ";
    at += strspn(at, " ");
    bool is_same = !strncmp(at, same, sizeof same - 1);
    if (is_same || !strncmp(at, other, sizeof other - 1)) {
        at += is_same ? sizeof same - 1 : sizeof other - 1;
        item->origin = is_same ? ORIGIN_SAME : ORIGIN_OTHER;
        message_number(&at, &item->number);
    }
}

/* The kinds of messages that contain a frame. */
static const struct kind {
    const char *word;
    bool is_fd;
    uint32_t flag;
} KINDS[] = {{"frame ", false, 0},
             {"remote ", false, CAN_RTR_FLAG},
             {"fdframe ", true, 0},
             {"fdframex ", true, 0},
             {"error ", false, CAN_ERR_FLAG}};

/* Reads the rest of a message after its first word. Returns false if the message contains no frame. For example, a
 * refusal such as `error bad id` has no timestamp. */
static bool get_item(const struct kind *kind, const char *at, struct item *item) {
    uint32_t identifier;
    uint64_t remote_length = 0;
    *item = (struct item){.is_fd = kind->is_fd};
    /* Linux sets this flag in every FD frame that a program receives. */
    item->frame.flags = kind->is_fd ? CANFD_FDF : 0;
    if (at[-2] == 'x') {
        get_flags(&at, &item->frame);
    }
    int digits = get_hex(&at, &identifier);
    if (!digits || !get_moment(&at, &item->moment)) {
        return false;
    }
    bool is_long = digits == 8 && kind->flag != CAN_ERR_FLAG;
    item->frame.can_id = identifier | kind->flag | (is_long ? CAN_EFF_FLAG : 0);
    if (kind->flag == CAN_RTR_FLAG) {
        message_number(&at, &remote_length);
        item->frame.len = (uint8_t)MIN(remote_length, (uint64_t)CAN_MAX_DLEN);
    } else {
        get_data(&at, &item->frame);
    }
    get_origin(at, item);
    return true;
}

bool message_to_item(const char *text, struct item *item) {
    for (size_t i = 0; i < sizeof KINDS / sizeof *KINDS; i++) {
        size_t length = strlen(KINDS[i].word);
        if (!strncmp(text, KINDS[i].word, length)) {
            return get_item(&KINDS[i], text + length, item);
        }
    }
    return false;
}
