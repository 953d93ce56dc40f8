/* Copies from and to the program's memory. The kernel makes the copy, as in its own calls, so a wrong address results
 * in EFAULT instead of SIGSEGV. Such a copy takes as long as two other system calls. Therefore memcpy is used for
 * memory on the caller's stack, and on the page of the last copy. */
#define _GNU_SOURCE
#include "library.h"

#include <errno.h>
#include <stdint.h>
#include <string.h>
#include <sys/syscall.h>

#define PAGE 4096
/* How many bytes above the current stack frame are assumed to belong to the frames of its callers. */
#define NEAR 32768

/* The pages that were last read from and last written to. */
static uintptr_t known[2] = {UINTPTR_MAX, UINTPTR_MAX};

static bool is_known(uintptr_t from, size_t length, bool writes) {
    uintptr_t here = (uintptr_t)__builtin_frame_address(0), page = from / PAGE;
    if (from >= here && from - here < NEAR && length < NEAR) {
        return true;
    }
    return page == (from + length - 1) / PAGE && page == __atomic_load_n(&known[writes], __ATOMIC_RELAXED);
}

/* Copies with a system call, which reports how many bytes were copied. If the system call is forbidden, for example in
 * a sandbox, memcpy makes the copy. */
static bool copy(void *here, void *program, size_t length, bool writes) {
    if (!length) {
        return true;
    }
    struct iovec ours = {here, length}, theirs = {program, length};
    int before = errno;
    long done = 0, call = writes ? SYS_process_vm_writev : SYS_process_vm_readv;
    bool is_free = is_known((uintptr_t)program, length, writes);
    if (!is_free) {
        done = syscall(call, syscall(SYS_getpid), &ours, 1L, &theirs, 1L, 0L);
        is_free = done < 0 && errno != EFAULT;
        errno = before;
    }
    if (is_free) {
        memcpy(writes ? program : here, writes ? here : program, length);
    } else if (done == (long)length) {
        __atomic_store_n(&known[writes], (uintptr_t)program / PAGE, __ATOMIC_RELAXED);
    }
    return is_free || done == (long)length;
}

bool copy_from(void *room, const void *program, size_t length) {
    return copy(room, (void *)program, length, false);
}

bool copy_to(void *program, const void *data, size_t length) {
    return copy((void *)data, program, length, true);
}
