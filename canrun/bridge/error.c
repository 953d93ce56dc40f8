/* The error of the socket, like sk_err in the kernel. One call returns the error and clears it. */
#include "bridge.h"

static int socket_error;

void error_set(int error) {
    socket_error = error;
    outbox_ring();
}

void error_change(int error) {
    if (!socket_error) {
        outbox_ring();
    }
    socket_error = error;
}

bool error_is_set(void) {
    return socket_error;
}

int error_take(void) {
    int error = socket_error;
    socket_error = 0;
    return error;
}
