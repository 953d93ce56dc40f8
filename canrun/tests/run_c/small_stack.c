/* Threads with the smallest possible stack can use sockets. After clearenv sockets and interface names still work. */
#include "check.h"
#include <limits.h>
#include <pthread.h>

/* Sanitizers need more stack than the minimum. */
#ifdef __SANITIZE_ADDRESS__
#define STACK 262144
#else
#define STACK PTHREAD_STACK_MIN
#endif

static void *work(void *result) {
    int fd = bound("can0"), other = bound("can1");
    send_numbered(fd, 0x123, 1);
    get(other, 0x123, 1);
    CHECK(close(fd) == 0 && close(other) == 0);
    return result;
}

int main(void) {
    pthread_attr_t small;
    pthread_t thread;
    void *result = NULL;
    CHECK(pthread_attr_init(&small) == 0 && pthread_attr_setstacksize(&small, STACK) == 0);
    CHECK(pthread_create(&thread, &small, work, &result) == 0 && pthread_join(thread, &result) == 0);
    CHECK(result == &result);
    CHECK(clearenv() == 0);
    work(NULL);
    return 0;
}
