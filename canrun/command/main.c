/* canbusd-run: runs a program whose CAN sockets belong to a canbusd server. */
#define _GNU_SOURCE
#include "program.h"
#include "server.h"
#include "static.h"
#include "virtual.h"

#include "../shared/address.h"
#include "../shared/interfaces.h"
#include "../virtual/run.h"

#include <ctype.h>
#include <errno.h>
#include <stdio.h>
#include <stdlib.h>
#include <sys/personality.h>
#include <string.h>
#include <unistd.h>

#define LIBRARY "libcanbusd-run.so"
#define VIRTUAL_LIBRARY "libcanbusd-virtual.so"
/* The exit statuses, as in env, timeout and similar commands: canbusd-run itself failed, the program cannot be run, and
 * the program does not exist. */
enum { STATUS_FAULT = 125, STATUS_NOT_RUN = 126, STATUS_NOT_FOUND = 127 };

/* clang-format off */
static const char HELP[] =
    "usage: canbusd-run [--address ADDR] [--interfaces NAME,..] [--wait | --static] [--] PROGRAM [ARGUMENT ..]\n"
    "       canbusd-run --virtual [--date D] [--until S] [--stall S] [--seed N] [--jitter MICROS] [--] PROGRAM ..\n"
    "       canbusd-run --help | --version\n"
    "\n"
    "Runs PROGRAM, and what it starts, so that CAN sockets (CAN_RAW, CAN_BCM, CAN_ISOTP) are sockets of a canbusd\n"
    "server: candump, cansend, python-can's socketcan interface, or a program of your own. It needs no root, kernel\n"
    "module or vcan.\n"
    "\n"
    "  --address ADDR        the server: HOST:PORT, [V6]:PORT, or a Unix path that begins with / or .\n"
    "                        (default: $CANBUSD_ADDRESS, else " ADDRESS_DEFAULT ")\n"
    "  --interfaces NAME,..  the interfaces that PROGRAM finds, which `any` is too (default: all of the server)\n"
    "  --wait                wait for a server that is not there yet, and in each write for room in a full\n"
    "                        transmit queue; without it the run fails, and the write with ENOBUFS\n"
    "  --static              for programs that are linked statically or with musl, or of Go, too: another process makes\n"
    "                        their calls (Linux 5.19 or later); a call takes some 50 microseconds longer\n"
    "\n"
    "With --virtual the clock of PROGRAM, and of all that it starts, a server too, is simulated: it stands still while\n"
    "one of them runs, and jumps to the next moment once all wait. Hours take seconds, and each run is the same. CAN\n"
    "sockets are then those of programs that canbusd-run starts inside, as in a script.\n"
    "\n"
    "  --date D              the date at the start: 2026-01-31, 2026-01-31T12:00:00 (UTC), seconds since 1970, or now\n"
    "                        (default: 2026-01-01)\n"
    "  --until S             end PROGRAM after this many seconds of its clock (SIGTERM)\n"
    "  --stall S             give up, with status 125, if nothing goes on for this many seconds of real time\n"
    "                        (default: 30; 0: never)\n"
    "  --seed N              another order of those that are due at one moment, the same for each N (default: 0, by age)\n"
    "  --jitter MICROS       each timed wait is longer by up to this many microseconds, which N determines (default: 0); to\n"
    "                        find a race it has to exceed the time between the events that are to change places\n"
    "\n"
    "CANBUSD_RUN_DEBUG=1 in the environment writes each call that is refused, and why, to standard error.\n"
    "The status is the program's; 125 if canbusd-run fails, 126 if PROGRAM can't be run, 127 if it does not exist.\n";
/* clang-format on */

struct words {
    const char *address, *interfaces;
    int waits, is_virtual, is_static;
    int is_supervised;        /* --supervised: start PROGRAM with a supervisor; the library is loaded */
    const char *virtual_word; /* an option that is only valid with --virtual */
    struct virtual_options virtual;
    char **program;
    int is_ready;      /* --ready: PROGRAM itself starts runs in virtual time, in its children */
    const char *child; /* a run's first process, which this process has forked: its number, a colon, and the descriptor
                          of the pipe to it */
};

static int fault(const char *text, const char *word) {
    fprintf(stderr, "canbusd-run: %s%s%s\n", text, word ? ": " : "", word ? word : "");
    return STATUS_FAULT;
}

/* Returns the value of an option, given as `--name VALUE` or `--name=VALUE`. Returns NULL if the word is another
 * option. */
static const char *value_of(const char *name, char ***at) {
    size_t length = strlen(name);
    if (strncmp(**at, name, length) != 0) {
        return NULL;
    }
    if ((**at)[length] == '=') {
        return **at + length + 1;
    }
    return (**at)[length] ? NULL : (*at)[1] ? *++*at : "";
}

/* Parses an option that belongs to --virtual. Returns false if the word is another option. If the value is invalid,
 * sets `status`. */
static int take_virtual(char ***at, struct words *words, int *status) {
    static const char *const names[] = {"date", "until", "stall", "seed", "jitter"};
    for (size_t i = 0; i < sizeof names / sizeof *names; i++) {
        char option[16];
        snprintf(option, sizeof option, "--%s", names[i]);
        const char *value = value_of(option, at);
        if (value) {
            const char *wrong = virtual_option(&words->virtual, names[i], value);
            words->virtual_word = names[i];
            if (wrong) {
                fprintf(stderr, "canbusd-run: %s %s: %s\n", option, value, wrong);
                *status = STATUS_FAULT;
            }
            return 1;
        }
    }
    return 0;
}

/* Refuses combinations of options that exclude each other. With --virtual no server is running yet, because PROGRAM
 * starts the server. */
static int check_words(const struct words *words) {
    if (words->virtual_word && !words->is_virtual) {
        return fault("only --virtual has this option", words->virtual_word);
    }
    if (words->is_static && (words->is_virtual || words->waits || getenv(RUN_SETTING))) {
        return fault(words->waits ? "--static has no --wait: writes that find no room fail with ENOBUFS"
                                  : "--static has no virtual time: what Go and static programs wait for is not seen",
                     NULL);
    }
    if (words->is_virtual && (words->address || words->interfaces || words->waits)) {
        return fault("--virtual has no --address, --interfaces or --wait: PROGRAM starts the server, and canbusd-run "
                     "again for programs with CAN sockets",
                     NULL);
    }
    return *words->program || words->child ? 0 : fault("which program? --help shows how it is used", NULL);
}

/* Parses the command line. Returns 0. On an error it prints a line to standard error and returns an exit status. */
static int read_words(char **at, struct words *words) {
    int status = 0;
    for (; *at && !strncmp(*at, "--", 2); at++) {
        const char *value;
        if (!(*at)[2]) {
            at++;
            break;
        }
        if (!strcmp(*at, "--wait")) {
            words->waits = 1;
        } else if (!strcmp(*at, "--static")) {
            words->is_static = 1;
        } else if (!strcmp(*at, "--supervised")) {
            words->is_supervised = 1;
        } else if (!strcmp(*at, "--ready")) {
            words->is_ready = 1;
        } else if (!strcmp(*at, "--virtual")) {
            words->is_virtual = 1;
        } else if ((value = value_of("--child", &at))) {
            words->child = value;
        } else if (take_virtual(&at, words, &status)) {
            if (status) {
                return status;
            }
        } else if ((value = value_of("--address", &at))) {
            words->address = value;
        } else if ((value = value_of("--interfaces", &at))) {
            words->interfaces = value;
        } else {
            return fault("no such option (--help shows all)", *at);
        }
        if (!*at) {
            break;
        }
    }
    words->program = at;
    return check_words(words);
}

static int no_interface(const char *name, size_t length, const char *all) {
    fprintf(stderr, "canbusd-run: --interfaces: the server has no interface '");
    for (size_t i = 0; i < length; i++) {
        fputc(isprint((unsigned char)name[i]) ? name[i] : '?', stderr);
    }
    fprintf(stderr, "'; it has %s\n", all);
    return STATUS_FAULT;
}

/* Makes only the interfaces in `list` visible to the program. Returns 0. On an error it prints a line and returns an
 * exit status. */
static int show_interfaces(const char *list, const char *all) {
    for (const char *at = list;; at++) {
        char name[IFNAMSIZ] = "";
        size_t length = strcspn(at, ",");
        memcpy(name, at, length < IFNAMSIZ ? length : 0);
        if (!interface_index(name)) {
            return no_interface(at, length, all);
        }
        at += length;
        if (!*at) {
            setenv("CANBUSD_INTERFACES", list, 1);
            return 0;
        }
    }
}

/* Adds an entry at the beginning of an environment variable, unless the variable already contains that entry. */
static void put_first(const char *variable, const char *text, const char *separator) {
    const char *before = getenv(variable);
    char *whole;
    if (!before || !*before) {
        setenv(variable, text, 1);
    } else if (!strstr(before, text) && asprintf(&whole, "%s%s%s", text, separator, before) >= 0) {
        setenv(variable, whole, 1);
        free(whole);
    }
}

/* Makes the loader load this library before all others. The library is in the same directory as canbusd-run. */
static int preload(const char *name) {
    char path[PATH_MAX], library[PATH_MAX + sizeof VIRTUAL_LIBRARY];
    ssize_t length = readlink("/proc/self/exe", path, sizeof path - 1);
    if (length < 0) {
        return fault("/proc/self/exe can't be read", strerror(errno));
    }
    path[length] = 0;
    *strrchr(path, '/') = 0;
    snprintf(library, sizeof library, "%s/%s", path, name);
    if (strpbrk(library, " :")) {
        return fault("the loader takes no library from a path with a space or a colon; move canbusd to another",
                     library);
    }
    if (access(library, R_OK)) {
        return fault(library, strerror(errno));
    }
    put_first("LD_PRELOAD", library, ":");
    /* gcc's address sanitizer insists on being the first library, although it need not be. This option turns that check
     * off. */
    put_first("ASAN_OPTIONS", "verify_asan_link_order=0", ":");
    return 0;
}

static int become(char **program, int is_supervised) {
    char path[PATH_MAX];
    int error = program_find(program[0], path);
    if (!error) {
        const char *obstacle = program_obstacle(path);
        if (obstacle) {
            fprintf(stderr, PROGRAM_NOTE, path, obstacle, program_cure(path));
        }
        if (is_supervised && program_is_of_musl(path)) {
            unsetenv("LD_PRELOAD");
        }
        int status = is_supervised ? static_run(path, program) : execv(path, program);
        if (status >= 0) {
            return status;
        }
        error = errno;
    }
    fault(program[0], strerror(error));
    return error == ENOENT ? STATUS_NOT_FOUND : STATUS_NOT_RUN;
}

/* Runs this command again with the library loaded and the option --supervised. The new process will be the program's
 * supervisor. */
static int begin_supervised(char **program) {
    size_t count = 0;
    while (program[count]) {
        count++;
    }
    char *words[count + 4];
    memcpy(words, (char *[]){"canbusd-run", "--supervised", "--"}, 3 * sizeof *words);
    memcpy(words + 3, program, (count + 1) * sizeof *words);
    setenv(STATIC_SETTING, "1", 1);
    execv("/proc/self/exe", words);
    return fault("/proc/self/exe can't be run", strerror(errno));
}

/* Runs the program, or the child process of a run, in virtual time, together with everything that it starts. */
static int run_virtual(const struct words *words) {
    char path[PATH_MAX];
    int status = 0, child, settings;
    if (getenv(RUN_SETTING)) {
        return fault("--virtual: this is a run in virtual time already", NULL);
    }
    if (words->child) {
        return sscanf(words->child, "%d:%d", &child, &settings) == 2
                   ? virtual_run_child(&words->virtual, child, settings)
                   : fault("--child is PID:DESCRIPTOR", words->child);
    }
    int error = program_find(words->program[0], path);
    if (error) {
        fault(words->program[0], strerror(error));
        return error == ENOENT ? STATUS_NOT_FOUND : STATUS_NOT_RUN;
    }
    status = preload(VIRTUAL_LIBRARY);
    return status ? status : virtual_run(&words->virtual, path, words->program);
}

int main(int count, char **all) {
    const char *address = getenv("CANBUSD_ADDRESS");
    struct words words = {.virtual = VIRTUAL_DEFAULTS};
    struct server server;
    if (count > 1 && !strcmp(all[1], "--help")) {
        return fputs(HELP, stdout) < 0 || fflush(stdout) ? STATUS_FAULT : 0;
    }
    if (count > 1 && !strcmp(all[1], "--version")) {
        return puts("canbusd-run " VERSION) < 0 || fflush(stdout) ? STATUS_FAULT : 0;
    }
    int status = read_words(all + 1, &words);
    if (status) {
        return status;
    }
    if (words.is_virtual) {
        return run_virtual(&words);
    }
    if (words.is_ready) {
        personality(ADDR_NO_RANDOMIZE); /* so that its children have the same addresses in every run */
        status = preload(VIRTUAL_LIBRARY);
        return status ? status : become(words.program, 0);
    }
    if (words.is_supervised) {
        return become(words.program, 1);
    }
    if (!words.address) {
        words.address = address && *address ? address : ADDRESS_DEFAULT;
    }
    if (!server_find(words.address, words.waits, &server)) {
        return STATUS_FAULT;
    }
    setenv("CANBUSD_ADDRESS", server.address, 1);
    setenv("CANBUSD_INTERFACES", server.interfaces, 1);
    if (words.waits) {
        setenv("CANBUSD_RUN_WAIT", "1", 1);
    }
    status = words.interfaces ? show_interfaces(words.interfaces, server.interfaces) : 0;
    status = status ? status : preload(LIBRARY);
    return status ? status : words.is_static ? begin_supervised(words.program) : become(words.program, 0);
}
