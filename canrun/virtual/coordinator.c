/* The coordinator of a run. It starts the program, sends the epoll to each process, and notices when processes end. It
 * chooses the next turn in three cases: when signals are due, when a thread sleeps in a call that the library does not
 * see, and when no thread can continue. */
#define _GNU_SOURCE
#include "coordinator.h"
#include "grants.h"
#include "messages.h"
#include "outside.h"
#include "proc.h"
#include "rights.h"
#include "tree.h"
#include "turns.h"

#include <errno.h>
#include <fcntl.h>
#include <poll.h>
#include <sched.h>
#include <signal.h>
#include <stdio.h>
#include <stdlib.h>
#include <string.h>
#include <sys/epoll.h>
#include <sys/mman.h>
#include <sys/personality.h>
#include <sys/prctl.h>
#include <sys/socket.h>
#include <sys/stat.h>
#include <sys/syscall.h>
#include <sys/un.h>
#include <sys/wait.h>
#include <time.h>
#include <unistd.h>

/* The pause, in milliseconds, between two checks of the thread that has the turn, or of new threads or threads outside
 * for which the coordinator waits. After IDLE_LOOKS checks at which the turn had moved or its owner was running, the
 * pause doubles, up to the longest pause. If the owner sleeps, the pause is the shortest again. */
#define WATCH_MS 4
#define LONGEST_WATCH_MS 32
#define IDLE_LOOKS 8
#define SOON_MS 1
#define STATUS_STUCK 125
/* How many seconds the other programs have to end after PROGRAM. These are seconds of virtual time. If all programs
 * wait in vain, they are real seconds, and if a program never waits, seconds of processor time. */
#define END_SECONDS 2
/* RARELY is the number of checks between two checks of a thread's running time. PROCESSOR_SECONDS is the time between
 * two checks of the processor's load. */
#define RARELY 12
/* A thread that has the turn counts as busy after this processor time in nanoseconds. */
#define LONG_RUN 1000000000
#define PROCESSOR_SECONDS 0.25
/* How many milliseconds a process has after connecting to send its request. */
#define ASK_MS 1000
/* The length of the path of the run's memory, up to the descriptor number at its end. */
#define PATH_SLASHES 20

static struct {
    const struct virtual_options *options;
    int own, listening;
    pid_t root;
    int root_status, status;
    bool has_ended, is_over;
    volatile sig_atomic_t number; /* the number of a signal that ends the run */
    uint64_t seen_turn;
    int looks, idle_looks;
    double since; /* the real time since which the run has made no progress */
    uint64_t run_before;
} coordinator = {.root_status = -1};

/* The coordinator uses no descriptors in the run, so it does not register with itself. */
bool register_process(void) {
    return false;
}

/* ---- processes of the run ---- */

/* Watches for the end of a process. Returns false if the process is not a descendant. */
static bool watch_process(uint32_t pid) {
    int fd = descendant_open(pid);
    struct epoll_event event = {.events = EPOLLIN, .data.u64 = (uint64_t)pid << 32 | (uint32_t)fd};
    return fd >= 0 && !epoll_ctl(coordinator.own, EPOLL_CTL_ADD, fd, &event);
}

static bool is_known(uint32_t pid) {
    for (uint32_t i = 0; i < slots_used(); i++) {
        const struct slot *slot = &run->slots[i];
        if (slot->pid == pid && slot->tid && slot->state != SLOT_BORN && slot->state != SLOT_FREE) {
            return true;
        }
    }
    return false;
}

/* Replies to a process of the run: sends the epoll to the process, or accepts its alarm. */
static void reply_to(int fd, uint32_t pid) {
    struct pollfd polled = {fd, POLLIN, 0};
    struct request request;
    struct rights rights;
    if (poll(&polled, 1, ASK_MS) <= 0 || recv(fd, &request, sizeof request, 0) != sizeof request) {
        return;
    }
    if (request.alarm != NO_ALARM) {
        if (alarm_grant(pid, &request)) {
            send(fd, "", 1, MSG_NOSIGNAL);
        }
    } else if (is_known(pid) || watch_process(pid)) {
        sendmsg(fd, rights_message(&rights, run_epoll), MSG_NOSIGNAL);
    }
}

/* Serves the processes of the run that have connected. If a process belongs to another user, the coordinator only
 * watches for the end of that process. Returns whether any process of the run had connected. */
static bool admit(void) {
    bool is_any = false;
    int fd;
    while ((fd = accept4(coordinator.listening, NULL, NULL, SOCK_CLOEXEC)) >= 0) {
        struct ucred peer = {0};
        socklen_t length = sizeof peer;
        bool is_there = !getsockopt(fd, SOL_SOCKET, SO_PEERCRED, &peer, &length) && peer.pid > 0;
        if (is_there && proc_is_below((uint32_t)peer.pid, (uint32_t)getpid())) {
            is_any = true;
            if (peer.uid == geteuid()) {
                reply_to(fd, (uint32_t)peer.pid);
            } else if (!is_known((uint32_t)peer.pid)) {
                watch_process((uint32_t)peer.pid);
            }
        }
        close(fd);
    }
    return is_any;
}

static void forget(uint32_t pid) {
    for (uint32_t i = 0; i < slots_used(); i++) {
        struct slot *slot = &run->slots[i];
        if (slot->pid == pid && slot->state != SLOT_FREE) {
            free_slot(slot);
            while (turn_owner() == i) {
                turn_change(run->turn, NOBODY);
            }
        }
    }
    for (int i = 0; i < ALARMS; i++) {
        if (run->alarms[i].pid == pid) {
            run->alarms[i].pid = 0;
        }
    }
    for (int i = 0; i < TIMERS; i++) {
        if (run->timers[i].owner == pid && !run->timers[i].is_shared) {
            run->timers[i].number = 0;
        }
    }
}

static void reap(void) {
    int status;
    for (pid_t pid; (pid = waitpid(-1, &status, WNOHANG)) > 0;) {
        if (pid == coordinator.root) {
            coordinator.root_status = status;
        }
    }
}

/* Handles the end of a process. The parent gets SIGCHLD before any other thread continues. */
static void process_ended(uint32_t pid, int fd) {
    uint32_t parent = proc_parent(pid);
    close(fd);
    if (parent && parent != (uint32_t)getpid()) {
        settle(parent);
        wake(key_of_signals(parent), SLOTS);
        wake_descriptors(parent);
    }
    forget(pid);
    for (uint32_t i = 0; i < slots_used(); i++) {
        struct slot *slot = &run->slots[i];
        if (slot->state == SLOT_WAITS && slot->kind == KIND_CHILD) {
            slot->flags |= IS_WOKEN;
        }
    }
    reap();
}

/* ---- deciding ---- */

/* Returns how many seconds the run may make no progress; 0 means no limit. */
static double most_stall(void) {
    return coordinator.has_ended ? END_SECONDS : coordinator.options->stall;
}

static bool is_stalled(void) {
    double now = real_now();
    if (!coordinator.since) {
        coordinator.since = now;
    }
    return most_stall() > 0 && now - coordinator.since > most_stall();
}

/* Ends a run that makes no progress. The run fails with this message, or ends without a failure if PROGRAM has already
 * ended. */
static void end_stalled(const char *text) {
    if (coordinator.has_ended) {
        coordinator.is_over = true;
    } else {
        fail("%s", text);
        say_waits();
    }
}

static void end_waiting(void) {
    char text[80];
    snprintf(text, sizeof text, "who is waited for does not go on for %.0f s:", most_stall());
    end_stalled(text);
}

static void send_alarm(struct alarm *alarm) {
    uint32_t pid = alarm->pid;
    uint64_t due = alarm->deadline;
    alarm->deadline = alarm->period ? due + alarm->period : NEVER;
    if (!alarm_signal((uint32_t)(alarm - run->alarms))) {
        alarm->pid = 0;
        return;
    }
    settle(pid);
    wake(key_of_signals(pid), SLOTS);
    wake_descriptors(pid);
}

static void send_alarms(void) {
    struct alarm *first = NULL;
    for (int i = 0; i < ALARMS; i++) {
        struct alarm *alarm = &run->alarms[i];
        if (alarm->pid && alarm->number && (!first || alarm->deadline < first->deadline)) {
            first = alarm;
        }
    }
    if (first && first->deadline != NEVER) {
        run->now = first->deadline > run->now ? first->deadline : run->now;
        send_alarm(first);
    }
}

/* Ends the run at the time of --until. If PROGRAM has ended, this is the time by which the other programs must have
 * ended. */
static void end_by_until(void) {
    if (coordinator.has_ended) {
        coordinator.is_over = true;
        return;
    }
    run->now = run->until;
    run->until = NEVER;
    say("the time is over (--until)");
    descendant_signal((uint32_t)coordinator.root, SIGTERM);
    settle((uint32_t)coordinator.root);
}

/* Handles a run in which no thread waits for a deadline, so only input from outside the run can continue it. */
static int wait_idle(void) {
    struct epoll_event event = {.events = EPOLLIN | EPOLLONESHOT, .data.u64 = 1};
    epoll_ctl(coordinator.own, EPOLL_CTL_MOD, run_epoll, &event);
    if (is_stalled()) {
        end_stalled("all wait, and nobody for a moment: for one another, or for what is outside of the run:");
    }
    return 50;
}

/* Gives the turn to the next thread. If this is not possible yet, returns how many milliseconds to wait. */
static int decide(void) {
    bool ignores = false;
    for (int tries = 0;; tries++) {
        uint32_t next = next_turn(ignores);
        ignores = false;
        if (next != NOBODY) {
            coordinator.since = 0;
            coordinator.looks = 0;
            hand_turn(next);
            return WATCH_MS;
        }
        switch (run->pause) {
        case PAUSE_BIRTH: outside_births(++coordinator.looks); break;
        case PAUSE_OUTSIDE:
            ignores = outside_sleeps();
            if (ignores || tries < 3) {
                continue;
            }
            run->progress++;
            break;
        case PAUSE_ALARM: send_alarms(); return 0;
        case PAUSE_UNTIL: end_by_until(); return 0;
        default: return wait_idle();
        }
        if (outside_runs()) {
            coordinator.since = 0;
        }
        if (is_stalled()) {
            end_waiting();
        }
        return SOON_MS;
    }
}

/* Returns the milliseconds until the next check. */
static int watch_pause(void) {
    int pause = WATCH_MS << coordinator.idle_looks / IDLE_LOOKS;
    return pause < LONGEST_WATCH_MS ? pause : LONGEST_WATCH_MS;
}

/* Counts consecutive checks that found nothing to do, until the pause has its maximum. */
static void count_idle_looks(bool is_idle) {
    if (!is_idle) {
        coordinator.idle_looks = 0;
    } else if (watch_pause() < LONGEST_WATCH_MS) {
        coordinator.idle_looks++;
    }
}

/* Checks whether the turn moves while a thread has it. The thread may run for a long time, but not indefinitely. */
static void watch(void) {
    uint64_t turn = run->turn;
    uint32_t owner = (uint32_t)turn & NOBODY;
    if (turn != coordinator.seen_turn || owner == NOBODY) {
        coordinator.seen_turn = turn;
        coordinator.looks = 0;
        coordinator.since = 0;
        coordinator.run_before = 0;
        count_idle_looks(true);
        return;
    }
    count_idle_looks(!outside_watch(turn, ++coordinator.looks, admit));
    if (run->turn != turn || coordinator.looks % RARELY) {
        return;
    }
    struct slot *slot = slot_at(owner);
    uint64_t used = proc_usage(slot->pid, slot->tid).run;
    coordinator.run_before = coordinator.run_before ? coordinator.run_before : used;
    double stall = most_stall();
    if (used - coordinator.run_before > LONG_RUN) {
        outside_share(turn);
    }
    bool is_endless = stall > 0 && (double)(used - coordinator.run_before) > stall * SECOND;
    if (is_endless && !coordinator.has_ended) {
        fail("%s has run for %.0f s without waiting; if it looks for what another thread does, that one gets no turn "
             "(--stall S for more)",
             who(slot->pid, slot->tid), stall);
    } else if (is_endless || (is_stalled() && !outside_any_runs())) {
        end_waiting();
    }
}

/* ---- the processor: the whole run uses one, because a thread wakes another thread fastest on the same processor ----
 */

static void pin(uint32_t tid, int processor) {
    cpu_set_t one;
    CPU_ZERO(&one);
    CPU_SET(processor, &one);
    sched_setaffinity((pid_t)tid, sizeof one, &one);
}

/* Other programs may use the run's processor too. If the run mostly waits for that processor, the run moves to the
 * processor on which this process is running now. */
static void find_processor(void) {
    static double looked_at;
    static struct usage before;
    double now = real_now();
    if (now - looked_at < PROCESSOR_SECONDS) {
        return;
    }
    looked_at = now;
    struct usage all = {0, 0, 0};
    for (uint32_t i = 0; i < slots_used(); i++) {
        if (run->slots[i].state != SLOT_FREE) {
            struct usage one = proc_usage(run->slots[i].pid, run->slots[i].tid);
            all.run += one.run;
            all.waited += one.waited;
        }
    }
    bool is_slow = all.waited - before.waited > 2 * (all.run - before.run) + 50000000 && all.waited > before.waited;
    before = all;
    int here = sched_getcpu();
    for (uint32_t i = 0; is_slow && here >= 0 && i < slots_used(); i++) {
        uint32_t pid = run->slots[i].pid, tid = run->slots[i].tid;
        if (tid && proc_is_below(pid, (uint32_t)getpid()) && proc_state(pid, tid) != 'X') {
            pin(tid, here);
        }
    }
}

/* ---- the run ---- */

static void note_signal(int number) {
    coordinator.number = number;
}

static void no_signal(int number) {
    (void)number;
}

static void handle_events(int patience) {
    struct epoll_event events[64];
    sigset_t none;
    sigemptyset(&none);
    int count = epoll_pwait(coordinator.own, events, 64, patience, &none);
    for (int i = 0; i < count; i++) {
        if (events[i].data.u64 == 0) {
            admit();
        } else if (events[i].data.u64 > 1) {
            process_ended((uint32_t)(events[i].data.u64 >> 32), (int)(uint32_t)events[i].data.u64);
        }
    }
    reap();
}

/* Ends the other programs of the run after PROGRAM has ended. Programs without a handler end at once. The others get
 * the signal before any thread continues. */
static void end_rest(void) {
    static uint32_t pids[TREE_MOST];
    size_t count = tree_below((uint32_t)getpid(), pids, TREE_MOST);
    coordinator.has_ended = true;
    coordinator.since = 0;
    run->until = run->now + END_SECONDS * SECOND;
    for (size_t i = 0; i < count; i++) {
        descendant_signal(pids[i], SIGTERM);
    }
    for (size_t i = 0; i < count; i++) {
        settle(pids[i]);
        wake(key_of_signals(pids[i]), SLOTS);
        wake_descriptors(pids[i]);
    }
}

static bool has_rest(void) {
    static uint32_t pids[TREE_MOST];
    return tree_below((uint32_t)getpid(), pids, TREE_MOST) > 0;
}

static void loop(void) {
    int patience = 0;
    while (!coordinator.is_over || run->has_failed) {
        handle_events(patience);
        say_notices();
        if (coordinator.number || run->has_failed) {
            coordinator.status = run->has_failed ? STATUS_STUCK : 128 + coordinator.number;
            return;
        }
        if (coordinator.root_status >= 0 && !coordinator.has_ended) {
            end_rest();
            patience = 0;
            continue;
        }
        if (turn_owner() == NOBODY) {
            patience = decide();
        } else {
            watch();
            patience = watch_pause();
        }
        find_processor();
        coordinator.is_over |= coordinator.has_ended && !has_rest();
    }
}

/* Returns the terminal from which the run was started. Input from that terminal comes from outside the run. */
static uint64_t own_terminal(void) {
    struct stat status;
    for (int fd = 0; fd < 3; fd++) {
        if (isatty(fd) && !fstat(fd, &status)) {
            return status.st_rdev;
        }
    }
    return 0;
}

static bool make_run(const struct virtual_options *options) {
    static const char slashes[PATH_SLASHES + 1] = "////////////////////";
    int fd = memfd_create(RUN_MEMORY, MFD_CLOEXEC);
    char path[64];
    if (fd < 0 || ftruncate(fd, sizeof *run)) {
        return false;
    }
    run = mmap(NULL, sizeof *run, PROT_READ | PROT_WRITE, MAP_SHARED, fd, 0);
    if (run == MAP_FAILED) {
        return false;
    }
    run->epoch = options->epoch;
    run->terminal = own_terminal();
    run->until = options->until;
    run->seed = options->seed;
    run->jitter = options->jitter;
    coordinator_pid = getpid();
    run->turn = NOBODY;
    run->magic = RUN_MAGIC;
    /* The path always has the same length, because addresses in programs depend on its length. */
    int length = snprintf(path, sizeof path, "/proc/%d", getpid());
    snprintf(path + length, sizeof path - (size_t)length, "%.*sfd/%d", PATH_SLASHES - length, slashes, fd);
    setenv(RUN_SETTING, path, 1);
    snprintf(path, sizeof path, "--seed %lu --jitter %lu", options->seed, options->jitter / 1000);
    setenv(RUN_OPTIONS, path, 1);
    return true;
}

static bool make_descriptors(void) {
    struct sockaddr_un name = {.sun_family = AF_UNIX};
    int length = snprintf(name.sun_path + 1, sizeof name.sun_path - 1, RUN_SOCKET, getpid());
    struct epoll_event admits = {.events = EPOLLIN, .data.u64 = 0}, idle = {.events = 0, .data.u64 = 1};
    run_epoll = epoll_create1(EPOLL_CLOEXEC);
    coordinator.own = epoll_create1(EPOLL_CLOEXEC);
    coordinator.listening = socket(AF_UNIX, SOCK_SEQPACKET | SOCK_CLOEXEC | SOCK_NONBLOCK, 0);
    return !bind(coordinator.listening, (struct sockaddr *)&name,
                 (socklen_t)(offsetof(struct sockaddr_un, sun_path) + 1 + (size_t)length)) &&
           !listen(coordinator.listening, 1024) &&
           !epoll_ctl(coordinator.own, EPOLL_CTL_ADD, coordinator.listening, &admits) &&
           !epoll_ctl(coordinator.own, EPOLL_CTL_ADD, run_epoll, &idle);
}

/* Executes the program with the signal mask that this process had when it started. */
static void become_program(const char *file, char **words, const sigset_t *mask) {
    int here = sched_getcpu();
    pin(0, here < 0 ? 0 : here);
    prctl(PR_SET_PDEATHSIG, SIGKILL);
    personality(ADDR_NO_RANDOMIZE); /* Containers may forbid this call. */
    sigprocmask(SIG_SETMASK, mask, NULL);
    execv(file, words);
    int error = errno;
    fprintf(stderr, "canbusd-run: %s: %s\n", words[0], strerror(error));
    _exit(error == ENOENT ? 127 : 126);
}

static void set_signals(sigset_t *before) {
    sigset_t blocked;
    sigemptyset(&blocked);
    static const int numbers[] = {SIGTERM, SIGHUP, SIGUSR2};
    for (size_t i = 0; i < sizeof numbers / sizeof *numbers; i++) {
        sigaction(numbers[i], &(struct sigaction){.sa_handler = note_signal}, NULL);
        sigaddset(&blocked, numbers[i]);
    }
    sigaction(SIGURG, &(struct sigaction){.sa_handler = no_signal}, NULL);
    sigaddset(&blocked, SIGURG);
    sigprocmask(SIG_BLOCK, &blocked, before);
}

static int status_of(int status) {
    return WIFEXITED(status) ? WEXITSTATUS(status) : 128 + WTERMSIG(status);
}

/* Makes this process the coordinator of a run that has no program yet. Returns false if that fails. `before` is set to
 * the signals that were blocked. */
static bool begin(const struct virtual_options *options, pid_t parent, sigset_t *before) {
    coordinator.options = options;
    prctl(PR_SET_CHILD_SUBREAPER, 1);
    prctl(PR_SET_PDEATHSIG, SIGUSR2);
    prctl(PR_SET_TIMERSLACK, 1000);
    set_signals(before);
    if (getppid() != parent) {
        return false;
    }
    if (!make_run(options) || !make_descriptors()) {
        fprintf(stderr, "canbusd-run: virtual time can't be had: %s\n", strerror(errno));
        return false;
    }
    return true;
}

/* Takes the slot of the first program, which is not running yet or is waiting. */
static struct slot *first_slot(void) {
    struct slot *slot = &run->slots[take_slot()];
    slot->parent = (uint32_t)getpid();
    slot->state = SLOT_BORN;
    return slot;
}

/* Coordinates the run until it ends, and returns the exit status. */
static int coordinate(void) {
    signal(SIGINT, SIG_IGN);
    signal(SIGQUIT, SIG_IGN);
    loop();
    say_notices();
    run->has_ended = 1;
    tree_kill();
    int result = coordinator.status ? coordinator.status : status_of(coordinator.root_status);
    if (result && (coordinator.options->seed || coordinator.options->jitter)) {
        say("status %d; %s repeats it", result, getenv(RUN_OPTIONS));
    }
    if (getenv("CANBUSD_RUN_DEBUG")) {
        say("%lu moments, %lu turns, %.6f s went by as programs looked at the clock again and again", run->moments,
            run->turn >> TURN_BITS, (double)run->spun / SECOND);
    }
    return result;
}

static int run_program(const struct virtual_options *options, const char *file, char **words, pid_t guard) {
    sigset_t before;
    if (!begin(options, guard, &before)) {
        return STATUS_STUCK;
    }
    struct slot *slot = first_slot();
    coordinator.root = fork();
    if (!coordinator.root) {
        become_program(file, words, &before);
    }
    slot->pid = (uint32_t)coordinator.root;
    return coordinate();
}

static bool tell_settings(int fd) {
    static const char *const names[] = {RUN_SETTING, RUN_OPTIONS};
    bool are_told = true;
    for (size_t i = 0; i < sizeof names / sizeof *names; i++) {
        are_told &= dprintf(fd, "%s=%s%c", names[i], getenv(names[i]), 0) > 0;
    }
    return !close(fd) && are_told;
}

int virtual_run_child(const struct virtual_options *options, pid_t child, int settings) {
    sigset_t before;
    if (!begin(options, getppid(), &before)) {
        return STATUS_STUCK;
    }
    first_slot()->pid = (uint32_t)child;
    coordinator.root = child;
    signal(SIGPIPE, SIG_IGN); /* The child may have ended. */
    return tell_settings(settings) ? coordinate() : STATUS_STUCK;
}

/* ---- the guard: if the coordinator is killed, the guard ends the rest of the run ---- */

static volatile sig_atomic_t guarded;

static void pass_on(int number) {
    if (guarded) {
        kill((pid_t)guarded, number);
    }
}

int virtual_run(const struct virtual_options *options, const char *file, char **words) {
    pid_t guard = getpid();
    int status;
    prctl(PR_SET_CHILD_SUBREAPER, 1);
    setenv("PYTHONHASHSEED", "0", 0);
    pid_t child = fork();
    if (child < 0) {
        fprintf(stderr, "canbusd-run: virtual time can't be had: %s\n", strerror(errno));
        return STATUS_STUCK;
    }
    if (!child) {
        _exit(run_program(options, file, words, guard));
    }
    guarded = child;
    signal(SIGINT, SIG_IGN);
    signal(SIGQUIT, SIG_IGN);
    signal(SIGTERM, pass_on);
    signal(SIGHUP, pass_on);
    while (waitpid(child, &status, 0) < 0 && errno == EINTR) {
    }
    if (WIFEXITED(status)) {
        return WEXITSTATUS(status);
    }
    tree_kill();
    fprintf(stderr, "canbusd-run: virtual time: its coordinator was ended by signal %d, and the run with it\n",
            WTERMSIG(status));
    return STATUS_STUCK;
}
