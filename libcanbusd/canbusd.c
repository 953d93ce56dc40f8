/* The layer between a C program and the proved exports of crates/canbusd_c. It checks pointers for NULL, and contains
 * the error messages for the codes. A bus is the pointer that canbusd_c_new returned. Each export receives this pointer
 * inside a struct handle. */
#include "canbusd.h"

#include <string.h>

struct handle {
    void *at;
};

extern uint32_t canbusd_c_new(const uint8_t *names, size_t len, const canbusd_config *config, void **out);
extern void canbusd_c_free(struct handle handle);
extern uint32_t canbusd_c_open(struct handle *handle, uint32_t iface, uint32_t capacity, uint32_t *socket);
extern uint32_t canbusd_c_close(struct handle *handle, uint32_t socket, canbusd_closed *left);
extern uint32_t canbusd_c_set_filters(struct handle *handle, uint32_t socket, const canbusd_filter *filters,
                                      size_t count);
extern uint32_t canbusd_c_set_option(struct handle *handle, uint32_t socket, uint32_t option, uint32_t value);
extern uint32_t canbusd_c_send(struct handle *handle, uint32_t socket, const canbusd_frame *frame, uint64_t *number);
extern uint32_t canbusd_c_receive(struct handle *handle, uint32_t socket, canbusd_item *item);
extern uint32_t canbusd_c_attempt(struct handle *handle, uint64_t moment, canbusd_tried *tried);
extern uint32_t canbusd_c_run(struct handle *handle, uint64_t moment, uint64_t *made);
extern uint32_t canbusd_c_restart(struct handle *handle, uint32_t iface, uint64_t moment);
extern uint32_t canbusd_c_down(struct handle *handle, uint32_t iface, uint64_t moment);
extern uint32_t canbusd_c_inject(struct handle *handle, const uint8_t *rule, size_t len);
extern void canbusd_c_end_rules(struct handle *handle);
extern uint32_t canbusd_c_status(struct handle *handle, uint32_t iface, canbusd_status *status);
extern uint32_t canbusd_c_stats(struct handle *handle, uint32_t socket, canbusd_stats *stats);
extern uint32_t canbusd_c_load(struct handle *handle, uint64_t moment, canbusd_load *load);
extern uint32_t canbusd_c_record(struct handle *handle, uint8_t *text, size_t room, size_t *len);
extern uint32_t canbusd_c_bench_new(const uint8_t *names, size_t len, const canbusd_config *config, uint32_t capacity,
                                    uint32_t shows_faults, const uint8_t *faults, size_t faults_len, size_t *line,
                                    void **out);
extern void canbusd_c_bench_free(struct handle handle);
extern uint32_t canbusd_c_bench_take(struct handle *handle, const uint8_t *lines, size_t lines_len, uint8_t *output,
                                     size_t room, size_t *len, size_t *line);
extern void canbusd_c_bench_output(struct handle *handle, uint8_t *output, size_t room, size_t *len);
extern uint32_t canbusd_c_bench_record(struct handle *handle, uint8_t *text, size_t room, size_t *len);
extern uint32_t canbusd_c_bench_log(struct handle *handle, uint8_t *text, size_t room, size_t *len);

/* Wraps the pointer of a bus in a handle for the exports. */
#define HANDLE(bus) (&(struct handle){bus})

uint32_t canbusd_new(const char *names, const canbusd_config *config, canbusd **bus) {
    void *made = NULL;
    uint32_t code;
    if (bus == NULL)
        return CANBUSD_NULL;
    *bus = NULL;
    if (names == NULL || config == NULL)
        return CANBUSD_NULL;
    code = canbusd_c_new((const uint8_t *)names, strlen(names), config, &made);
    if (code == CANBUSD_OK)
        *bus = made;
    return code;
}

void canbusd_free(canbusd *bus) {
    if (bus != NULL)
        canbusd_c_free((struct handle){bus});
}

uint32_t canbusd_open(canbusd *bus, uint32_t iface, uint32_t capacity, uint32_t *socket) {
    if (bus == NULL || socket == NULL)
        return CANBUSD_NULL;
    return canbusd_c_open(HANDLE(bus), iface, capacity, socket);
}

uint32_t canbusd_close(canbusd *bus, uint32_t socket, canbusd_closed *left) {
    canbusd_closed unasked = {0, 0};
    if (bus == NULL)
        return CANBUSD_NULL;
    return canbusd_c_close(HANDLE(bus), socket, left != NULL ? left : &unasked);
}

uint32_t canbusd_set_filters(canbusd *bus, uint32_t socket, const canbusd_filter *filters, size_t count) {
    static const canbusd_filter none = {0, 0};
    if (bus == NULL || (filters == NULL && count != 0))
        return CANBUSD_NULL;
    return canbusd_c_set_filters(HANDLE(bus), socket, filters != NULL ? filters : &none, count);
}

uint32_t canbusd_set_option(canbusd *bus, uint32_t socket, uint32_t option, uint32_t value) {
    if (bus == NULL)
        return CANBUSD_NULL;
    return canbusd_c_set_option(HANDLE(bus), socket, option, value);
}

uint32_t canbusd_send(canbusd *bus, uint32_t socket, const canbusd_frame *frame, uint64_t *number) {
    uint64_t unasked = 0;
    if (bus == NULL || frame == NULL)
        return CANBUSD_NULL;
    return canbusd_c_send(HANDLE(bus), socket, frame, number != NULL ? number : &unasked);
}

uint32_t canbusd_receive(canbusd *bus, uint32_t socket, canbusd_item *item) {
    if (bus == NULL || item == NULL)
        return CANBUSD_NULL;
    return canbusd_c_receive(HANDLE(bus), socket, item);
}

uint32_t canbusd_attempt(canbusd *bus, uint64_t moment, canbusd_tried *tried) {
    canbusd_tried unasked;
    if (bus == NULL)
        return CANBUSD_NULL;
    if (tried == NULL) {
        memset(&unasked, 0, sizeof unasked);
        tried = &unasked;
    }
    return canbusd_c_attempt(HANDLE(bus), moment, tried);
}

uint32_t canbusd_run(canbusd *bus, uint64_t moment, uint64_t *made) {
    uint64_t unasked = 0;
    if (bus == NULL)
        return CANBUSD_NULL;
    return canbusd_c_run(HANDLE(bus), moment, made != NULL ? made : &unasked);
}

uint32_t canbusd_restart(canbusd *bus, uint32_t iface, uint64_t moment) {
    if (bus == NULL)
        return CANBUSD_NULL;
    return canbusd_c_restart(HANDLE(bus), iface, moment);
}

uint32_t canbusd_down(canbusd *bus, uint32_t iface, uint64_t moment) {
    if (bus == NULL)
        return CANBUSD_NULL;
    return canbusd_c_down(HANDLE(bus), iface, moment);
}

uint32_t canbusd_inject(canbusd *bus, const char *rule) {
    if (bus == NULL || rule == NULL)
        return CANBUSD_NULL;
    return canbusd_c_inject(HANDLE(bus), (const uint8_t *)rule, strlen(rule));
}

uint32_t canbusd_end_rules(canbusd *bus) {
    if (bus == NULL)
        return CANBUSD_NULL;
    canbusd_c_end_rules(HANDLE(bus));
    return CANBUSD_OK;
}

uint32_t canbusd_get_status(canbusd *bus, uint32_t iface, canbusd_status *status) {
    if (bus == NULL || status == NULL)
        return CANBUSD_NULL;
    return canbusd_c_status(HANDLE(bus), iface, status);
}

uint32_t canbusd_get_stats(canbusd *bus, uint32_t socket, canbusd_stats *stats) {
    if (bus == NULL || stats == NULL)
        return CANBUSD_NULL;
    return canbusd_c_stats(HANDLE(bus), socket, stats);
}

uint32_t canbusd_get_load(canbusd *bus, uint64_t moment, canbusd_load *load) {
    if (bus == NULL || load == NULL)
        return CANBUSD_NULL;
    return canbusd_c_load(HANDLE(bus), moment, load);
}

uint32_t canbusd_record(canbusd *bus, char *text, size_t room, size_t *len) {
    uint8_t none = 0;
    if (bus == NULL || len == NULL || (text == NULL && room != 0))
        return CANBUSD_NULL;
    return canbusd_c_record(HANDLE(bus), text != NULL ? (uint8_t *)text : &none, room, len);
}

uint32_t canbusd_bench_new(const char *names, const canbusd_config *config, uint32_t capacity, uint32_t shows_faults,
                           const char *faults, size_t faults_len, canbusd_bench **bench, size_t *line) {
    static const uint8_t none = 0;
    void *made = NULL;
    size_t wrong = 0;
    uint32_t code;
    if (bench == NULL)
        return CANBUSD_NULL;
    *bench = NULL;
    if (names == NULL || config == NULL || (faults == NULL && faults_len != 0))
        return CANBUSD_NULL;
    code = canbusd_c_bench_new((const uint8_t *)names, strlen(names), config, capacity, shows_faults,
                               faults != NULL ? (const uint8_t *)faults : &none, faults_len, &wrong, &made);
    if (code == CANBUSD_OK)
        *bench = made;
    if (line != NULL)
        *line = wrong;
    return code;
}

void canbusd_bench_free(canbusd_bench *bench) {
    if (bench != NULL)
        canbusd_c_bench_free((struct handle){bench});
}

/* Returns whether the caller passed no buffer for a text, or no pointer for its length. */
static int has_no_place(const char *text, size_t room, const size_t *len) {
    return len == NULL || (text == NULL && room != 0);
}

uint32_t canbusd_bench_take(canbusd_bench *bench, const char *lines, size_t lines_len, char *output, size_t room,
                            size_t *len, size_t *line) {
    static const uint8_t no_lines = 0;
    uint8_t none = 0;
    size_t wrong = 0;
    uint32_t code;
    if (bench == NULL || (lines == NULL && lines_len != 0) || has_no_place(output, room, len))
        return CANBUSD_NULL;
    code = canbusd_c_bench_take(HANDLE(bench), lines != NULL ? (const uint8_t *)lines : &no_lines, lines_len,
                                output != NULL ? (uint8_t *)output : &none, room, len, &wrong);
    if (line != NULL)
        *line = wrong;
    return code;
}

uint32_t canbusd_bench_output(canbusd_bench *bench, char *output, size_t room, size_t *len) {
    uint8_t none = 0;
    if (bench == NULL || has_no_place(output, room, len))
        return CANBUSD_NULL;
    canbusd_c_bench_output(HANDLE(bench), output != NULL ? (uint8_t *)output : &none, room, len);
    return CANBUSD_OK;
}

uint32_t canbusd_bench_record(canbusd_bench *bench, char *text, size_t room, size_t *len) {
    uint8_t none = 0;
    if (bench == NULL || has_no_place(text, room, len))
        return CANBUSD_NULL;
    return canbusd_c_bench_record(HANDLE(bench), text != NULL ? (uint8_t *)text : &none, room, len);
}

uint32_t canbusd_bench_log(canbusd_bench *bench, char *text, size_t room, size_t *len) {
    uint8_t none = 0;
    if (bench == NULL || has_no_place(text, room, len))
        return CANBUSD_NULL;
    return canbusd_c_bench_log(HANDLE(bench), text != NULL ? (uint8_t *)text : &none, room, len);
}

const char *canbusd_strerror(uint32_t code) {
    static const char *const texts[] = {
        [CANBUSD_OK] = "ok",
        [CANBUSD_RECORD_FULL] = "record full",
        [CANBUSD_NO_INTERFACE] = "no such interface",
        [CANBUSD_BAD_CAPACITY] = "bad capacity",
        [CANBUSD_TOO_MANY_SOCKETS] = "too many sockets",
        [CANBUSD_NO_SOCKET] = "no socket",
        [CANBUSD_FD_OFF] = "fd frames off",
        [CANBUSD_BUS_OFF] = "bus off",
        [CANBUSD_NO_BUFFERS] = "no buffers",
        [CANBUSD_NOT_BUS_OFF] = "not bus off",
        [CANBUSD_NO_MEMORY] = "no memory",
        [CANBUSD_DOWN] = "interface down",
        [CANBUSD_NOTHING] = "nothing",
        [CANBUSD_BAD_FRAME] = "bad frame",
        [CANBUSD_BAD_MOMENT] = "bad moment",
        [CANBUSD_BAD_OPTION] = "bad option",
        [CANBUSD_BAD_FILTER] = "invalid filter",
        [CANBUSD_TOO_MANY_FILTERS] = "too many filters",
        [CANBUSD_BAD_RULE] = "bad rule",
        [CANBUSD_TOO_MANY_RULES] = "too many rules",
        [CANBUSD_BAD_NAMES] = "bad names",
        [CANBUSD_BAD_CONFIG] = "bad bus",
        [CANBUSD_BAD_BIT_RATES] = "bad bit rates",
        [CANBUSD_BAD_RUN] = "cannot run",
        [CANBUSD_NULL] = "null pointer",
        [CANBUSD_BAD_LINE] = "bad line",
        [CANBUSD_REPEATED_ATTEMPT] = "repeated attempt",
        [CANBUSD_TOO_LONG] = "input too long",
    };
    return code < sizeof texts / sizeof *texts ? texts[code] : "no such code";
}
