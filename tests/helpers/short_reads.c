/* Makes each read from standard input, which is a file, return at most one byte (LD_PRELOAD), as test_bench_lines.py
 * needs it. */
#include <sys/syscall.h>
#include <unistd.h>

ssize_t read(int file, void *bytes, size_t count) {
    static char ahead[65536];
    static ssize_t have, given;
    if (file != STDIN_FILENO || !count) {
        return syscall(SYS_read, file, bytes, count);
    }
    if (given == have) {
        given = 0;
        have = syscall(SYS_read, file, ahead, sizeof ahead);
        if (have <= 0) {
            ssize_t result = have;
            have = 0;
            return result;
        }
    }
    *(char *)bytes = ahead[given++];
    return 1;
}
