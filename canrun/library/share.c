/* The memory that a bridge shares with the programs of its socket. It contains the replies to quick writes (quick.c)
 * and the notes of received datagrams (notes.c). The memory belongs to the socket with a given name, not to a file
 * descriptor, so the library need not track close, dup, fork and SCM_RIGHTS. The process that creates a socket also
 * creates the memory; other processes request it from the bridge. Each process keeps the memory of a limited number of
 * sockets in a cache. */
#define _GNU_SOURCE
#include "library.h"

#include <errno.h>
#include <pthread.h>
#include <string.h>
#include <sys/mman.h>
#include <sys/random.h>
#include <sys/resource.h>
#include <sys/syscall.h>

/* The size of the cache. The memory of a socket is in one of the FEW entries that start at the hash of the socket's
 * name. */
#define KNOWN_BITS 8
#define KNOWN (1u << KNOWN_BITS)
#define FEW 16
/* A flag in `users`: the entry is being assigned to another socket, so no thread may use it. */
#define IS_CHANGING (1u << 31)

static struct shared known[KNOWN];

/* Marks all entries as unused after fork, because the child has no other threads. */
static void forget_users(void) {
    for (size_t i = 0; i < KNOWN; i++) {
        if (known[i].users & IS_CHANGING) {
            known[i] = (struct shared){0};
        }
        known[i].users = 0;
    }
}

__attribute__((constructor)) static void start(void) {
    pthread_atfork(NULL, NULL, forget_users);
}

void share_leave(struct shared *one) {
    __atomic_fetch_sub(&one->users, 1, __ATOMIC_RELEASE);
}

/* Returns the Fibonacci hash of a name, in which each bit of the name changes the upper bits of the product. */
static uint32_t hash_of(const char *name) {
    uint64_t hash = 0, word;
    for (size_t i = 0; i < WIRE_NAME_ROOM; i += sizeof word) {
        memcpy(&word, name + i, sizeof word);
        hash = (hash ^ word) * 0x9E3779B97F4A7C15;
    }
    return (uint32_t)(hash >> (64 - KNOWN_BITS));
}

/* Assigns the entry to this socket. Returns false if a thread is using the entry. */
static bool change(struct shared *one, const char *name, struct wire_memory *memory) {
    uint32_t users = 0;
    if (!__atomic_compare_exchange_n(&one->users, &users, IS_CHANGING, false, __ATOMIC_ACQUIRE, __ATOMIC_RELAXED)) {
        return false;
    }
    if (one->memory) {
        syscall(SYS_munmap, one->memory, sizeof *one->memory);
    }
    loan_forget(&one->copy);
    __atomic_store_n(&one->memory, memory, __ATOMIC_RELAXED);
    one->writes = 0;
    memcpy(one->name, name, sizeof one->name);
    __atomic_fetch_sub(&one->users, IS_CHANGING, __ATOMIC_RELEASE);
    return true;
}

/* Drops the memory of sockets that have been closed. */
static void forget_closed(void) {
    static const char nobody[WIRE_NAME_ROOM];
    for (struct shared *one = known; one < known + KNOWN; one++) {
        uint32_t users = __atomic_add_fetch(&one->users, 1, __ATOMIC_ACQUIRE);
        bool is_over =
            !(users & IS_CHANGING) && one->memory && __atomic_load_n(&one->memory->is_over, __ATOMIC_RELAXED);
        share_leave(one);
        if (is_over) {
            change(one, nobody, NULL);
        }
    }
}

/* Stores the memory in one of the FEW entries of this socket, in a free one if possible. A socket that loses its entry
 * has to request its memory again, which takes turns of virtual time. The names of sockets differ in every run, and so
 * do their entries. */
static bool keep(const char *name, struct wire_memory *memory) {
    static uint32_t turn;
    uint32_t hash = hash_of(name), first = __atomic_fetch_add(&turn, 1, __ATOMIC_RELAXED);
    for (uint32_t i = 0; i < 2 * FEW; i++) {
        struct shared *one = &known[(hash + (first + i) % FEW) % KNOWN];
        bool is_free = !__atomic_load_n(&one->memory, __ATOMIC_RELAXED);
        if ((is_free || i >= FEW) && change(one, name, memory)) {
            return true;
        }
    }
    return false;
}

/* Finds the memory of the socket with this name and marks it as used. Returns NULL if this process does not have that
 * memory. */
static struct shared *find(const char *name) {
    uint32_t hash = hash_of(name);
    for (uint32_t i = 0; i < FEW; i++) {
        struct shared *one = &known[(hash + i) % KNOWN];
        bool is_changing = __atomic_fetch_add(&one->users, 1, __ATOMIC_ACQUIRE) & IS_CHANGING;
        if (!is_changing && one->memory && !memcmp(one->name, name, sizeof one->name)) {
            return one;
        }
        share_leave(one);
    }
    return NULL;
}

/* ---- requesting the memory ---- */

/* Receives two file descriptors from this end of a pair: the descriptor of the memory, and that of a session that may
 * be lent. A descriptor that does not arrive remains -1. */
static void receive_descriptors(int from, int fds[2]) {
    union {
        char room[CMSG_SPACE(2 * sizeof(int))];
        struct cmsghdr align;
    } control;
    char byte;
    struct iovec part = {&byte, 1};
    struct msghdr message = {
        .msg_iov = &part, .msg_iovlen = 1, .msg_control = &control, .msg_controllen = sizeof control};
    long length;
    while ((length = syscall(SYS_recvmsg, from, &message, MSG_CMSG_CLOEXEC)) < 0 && errno == EINTR) {
    }
    struct cmsghdr *rights = length > 0 ? CMSG_FIRSTHDR(&message) : NULL;
    if (rights) {
        memcpy(fds, CMSG_DATA(rights), MIN(rights->cmsg_len - CMSG_LEN(0), 2 * sizeof(int)));
    }
}

static void ask_for_descriptors(int fd, int fds[2]) {
    int pair[2];
    if (syscall(SYS_socketpair, AF_UNIX, SOCK_STREAM | SOCK_CLOEXEC, 0, pair)) {
        return;
    }
    int error = put_request(fd, pair[1], &(struct wire_request){.kind = WIRE_SHARE}, NULL, 0);
    syscall(SYS_close, pair[1]);
    if (!error) {
        receive_descriptors(pair[0], fds);
    }
    syscall(SYS_close, pair[0]);
}

static struct wire_memory *map(int memory_fd) {
    /* This system call bypasses the thread sanitizer, which does not see that the descriptor is created and closed. */
    const long access = PROT_READ | PROT_WRITE, kind = MAP_SHARED;
    void *memory = (void *)syscall(SYS_mmap, NULL, sizeof(struct wire_memory), access, kind, memory_fd, 0L);
    return memory == MAP_FAILED ? NULL : memory;
}

/* Requests the memory of a socket from the bridge and stores it. It checks the name, because the file descriptor may
 * belong to another socket by now. */
static bool ask_for_memory(const struct socket *sock) {
    int before = errno, fds[2] = {-1, -1};
    ask_for_descriptors(sock->fd, fds);
    struct wire_memory *memory = fds[0] >= 0 ? map(fds[0]) : NULL;
    for (int i = 0; i < 2; i++) {
        if (fds[i] >= 0) {
            syscall(SYS_close, fds[i]);
        }
    }
    if (memory && (memcmp(memory->name, sock->name, sizeof sock->name) || !keep(sock->name, memory))) {
        munmap(memory, sizeof *memory);
        memory = NULL;
    }
    errno = before;
    return memory;
}

struct shared *share_enter(const struct socket *sock) {
    struct shared *one = find(sock->name);
    return one || !ask_for_memory(sock) ? one : find(sock->name);
}

void share_borrow(struct shared *one, int fd) {
    int before = errno, fds[2] = {-1, -1};
    uint32_t session = one->memory->loan.session;
    ask_for_descriptors(fd, fds);
    if (fds[0] >= 0) {
        syscall(SYS_close, fds[0]);
    }
    loan_keep(&one->copy, fds[1], fds[1] >= 0 ? one->memory->loan.shared : session);
    errno = before;
}

/* ---- creating the memory ---- */

/* Sets the size of the memory. The limit on file sizes (ulimit -f) should not apply, because the memory is not a file
 * of the program. So the limit is raised if necessary. */
static bool set_size(int fd) {
    struct rlimit before;
    const rlim_t size = sizeof(struct wire_memory);
    bool is_small = !getrlimit(RLIMIT_FSIZE, &before) && before.rlim_cur < size;
    if (is_small && (before.rlim_max < size || setrlimit(RLIMIT_FSIZE, &(struct rlimit){size, before.rlim_max}))) {
        errno = ENOMEM;
        return false;
    }
    bool is_set = !ftruncate(fd, (off_t)size);
    if (is_small) {
        setrlimit(RLIMIT_FSIZE, &before);
    }
    return is_set;
}

int share_make(const char *name) {
    int fd = (int)syscall(SYS_memfd_create, "canbusd-socket", 1L); /* MFD_CLOEXEC */
    struct wire_memory *memory = fd >= 0 && set_size(fd) ? map(fd) : NULL;
    if (!memory) {
        int error = errno;
        if (fd >= 0) {
            syscall(SYS_close, fd);
        }
        return fail(error);
    }
    forget_closed();
    memcpy(memory->name, name, sizeof memory->name);
    syscall(SYS_getrandom, &memory->key, sizeof memory->key, 0L);
    if (!keep(name, memory)) {
        munmap(memory, sizeof *memory);
    }
    return fd;
}
