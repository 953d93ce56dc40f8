/* Files below /sys/class/net. */
#include "links.h"

#include <dirent.h>
#include <sys/stat.h>

#define FOLDER "/sys/class/net/"
#define FILE_OF(name) CASE(file_##name, file(FOLDER "can2/" #name))
FILE_OF(type)
FILE_OF(flags)
FILE_OF(mtu)
FILE_OF(operstate)
FILE_OF(carrier)
FILE_OF(dev_id)
FILE_OF(dev_port)
FILE_OF(address)
FILE_OF(addr_len)
FILE_OF(broadcast)
FILE_OF(link_mode)
FILE_OF(dormant)
FILE_OF(netdev_group)
FILE_OF(tx_queue_len)
FILE_OF(nothing)
CASE(file_uevent, file(FOLDER "can2/uevent"))
CASE(file_sent, reset(), value("can2", IFLA_IFNAME), file(FOLDER "can2/statistics/tx_packets"))
CASE(file_errors, reset(), value("can2", IFLA_IFNAME), file(FOLDER "can2/statistics/tx_errors"))
CASE(file_of_none, file(FOLDER "can9/type"))
CASE(file_of_lo, file(FOLDER "lo/type"))
CASE(file_twice, file(FOLDER "/can2//type"))
static void index_of(const char *path) {
    int number = 0;
    FILE *stream = fopen(path, "r");
    say(" %d", stream && fscanf(stream, "%d", &number) == 1 && (unsigned)number == if_nametoindex("can2"));
    if (stream) {
        fclose(stream);
    }
}
CASE(file_ifindex, index_of(FOLDER "can2/ifindex"))
CASE(file_iflink, index_of(FOLDER "can2/iflink"))
CASE(file_written, DO(open(FOLDER "can2/type", O_WRONLY)))
CASE(file_created, DO(open(FOLDER "can2/other", O_WRONLY | O_CREAT, 0600)))
CASE(file_as_folder, DO(open(FOLDER "can2/type", O_RDONLY | O_DIRECTORY)))
CASE(list, listed(FOLDER, "can2"))
CASE(list_without_slash, listed("/sys/class/net", "can3"))
CASE(list_kernel, listed(FOLDER, "lo"))
CASE(list_none, listed(FOLDER, "can9"))
static void again(void) {
    DIR *folder = opendir(FOLDER);
    for (int i = 0; i < 2; i++) {
        int found = 0;
        for (struct dirent *one; (one = readdir(folder));) {
            found += !strcmp(one->d_name, "can2");
        }
        say(" %d", found);
        rewinddir(folder);
    }
    say(" %d", closedir(folder));
}
CASE(list_again, again())
static void mode_of_path(const char *path) {
    struct stat facts = {0};
    DO(stat(path, &facts));
    say(" %o", facts.st_mode);
}
CASE(stat_folder, mode_of_path(FOLDER "can2"))
CASE(stat_file, mode_of_path(FOLDER "can2/type"))
CASE(stat_none, mode_of_path(FOLDER "can9"))
CASE(stat_no_file, mode_of_path(FOLDER "can2/nothing"))
CASE(access_file, DO(access(FOLDER "can2/type", R_OK)), DO(access(FOLDER "can2/nothing", F_OK)))
CASE(access_folder, DO(access(FOLDER "can2", X_OK)))
CASE(shell_reads, shell("cat " FOLDER "can2/type"))
