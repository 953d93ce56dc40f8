/* Prints random data: from each call, from the devices, and from the kernel at the start. Also prints addresses, and
 * the order in which four threads leave a barrier. */
#define _GNU_SOURCE
#include <dlfcn.h>
#include <fcntl.h>
#include <pthread.h>
#include <stdint.h>
#include <stdio.h>
#include <stdlib.h>
#include <string.h>
#include <sys/auxv.h>
#include <sys/random.h>
#include <sys/syscall.h>
#include <unistd.h>

#define THREADS 4
#define ROUNDS 20

static pthread_barrier_t barrier;
static pthread_mutex_t mutex = PTHREAD_MUTEX_INITIALIZER;
static char order[THREADS * ROUNDS + 1];
static size_t at;

static void *leave(void *name) {
    for (int i = 0; i < ROUNDS; i++) {
        pthread_barrier_wait(&barrier);
        pthread_mutex_lock(&mutex);
        order[at++] = *(char *)name;
        pthread_mutex_unlock(&mutex);
    }
    return NULL;
}

static void show(const char *name, const void *data, size_t length) {
    printf("%s ", name);
    for (size_t i = 0; i < length; i++) {
        printf("%02x", ((const uint8_t *)data)[i]);
    }
    puts("");
}

static void show_device(const char *path) {
    uint8_t data[8];
    int fd = open(path, O_RDONLY);
    show(path, data, read(fd, data, sizeof data) == sizeof data ? sizeof data : 0);
    close(fd);
}

int main(void) {
    volatile size_t too_many = 257;
    static char names[] = "abcd";
    pthread_t threads[THREADS];
    uint8_t data[8];
    uint32_t (*number)(void) = (uint32_t(*)(void))dlsym(RTLD_DEFAULT, "arc4random");
    show("getrandom", data, getrandom(data, sizeof data, 0) == sizeof data ? sizeof data : 0);
    show("again", data, getrandom(data, sizeof data, GRND_NONBLOCK) == sizeof data ? sizeof data : 0);
    show("by number", data, syscall(SYS_getrandom, data, 5, 0) == 5 ? 5 : 0);
    show("getentropy", data, getentropy(data, sizeof data) ? 0 : sizeof data);
    show("at start", (void *)(uintptr_t)getauxval(AT_RANDOM), 16);
    if (number) {
        uint32_t drawn = number();
        show("arc4random", &drawn, sizeof drawn);
    }
    show_device("/dev/urandom");
    show_device("/dev/random");
    void *block = malloc(100), *large = malloc(1 << 20);
    printf("addresses %p %p %p %p\n", block, large, (void *)data, (void *)(uintptr_t)main);
    free(block);
    free(large);
    pthread_barrier_init(&barrier, NULL, THREADS);
    for (int i = 0; i < THREADS; i++) {
        pthread_create(&threads[i], NULL, leave, &names[i]);
    }
    for (int i = 0; i < THREADS; i++) {
        pthread_join(threads[i], NULL);
    }
    pthread_barrier_destroy(&barrier);
    printf("barrier %s\n", order);
    return getrandom(data, 1, ~0U) == -1 && getentropy(data, too_many) == -1 ? 0 : 1;
}
