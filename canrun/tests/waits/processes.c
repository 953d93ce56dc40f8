/* Ways to start processes, and waits for their end. */
#include "waits.h"

#include <fcntl.h>
#include <poll.h>
#include <pthread.h>
#include <pty.h>
#include <sched.h>
#include <spawn.h>
#include <sys/mman.h>
#include <sys/pidfd.h>
#include <sys/resource.h>
#include <sys/syscall.h>
#include <sys/wait.h>
#include <wordexp.h>

extern char **environ;

static void sleep_and_end(int status) {
    usleep(SOON * 1000);
    _exit(status);
}

static void ends_with_child(pid_t pid) {
    int status = 0;
    CHECK(waitpid(pid, &status, 0) == pid);
    end(WIFEXITED(status) ? WEXITSTATUS(status) : -1);
}

static void processes_fork(void) {
    begin();
    pid_t pid = fork();
    if (pid == 0) {
        sleep_and_end(3);
    }
    ends_with_child(pid);
}

static void processes_vfork(void) {
    begin();
    pid_t pid = vfork();
    if (pid == 0) {
        execlp("sleep", "sleep", "0.03", NULL);
        _exit(1);
    }
    ends_with_child(pid);
}

/* Forks with a direct system call, which the C library does not notice. */
static void processes_raw_fork(void) {
    begin();
    pid_t pid = _Fork();
    if (pid == 0) {
        sleep_and_end(4);
    }
    ends_with_child(pid);
}

static int sleep_in_clone(void *nothing) {
    (void)nothing;
    usleep(SOON * 1000);
    return 5;
}

static void processes_clone(void) {
    static char stack[65536] __attribute__((aligned(16)));
    begin();
    ends_with_child(clone(sleep_in_clone, stack + sizeof stack, SIGCHLD, NULL));
}

static void processes_spawn(void) {
    char *words[] = {"sh", "-c", "sleep 0.03; exit 6", NULL};
    pid_t pid;
    begin();
    CHECK(!posix_spawnp(&pid, "sh", NULL, NULL, words, environ));
    ends_with_child(pid);
}

static void processes_system(void) {
    begin();
    int status = system("sleep 0.03; exit 7");
    end(WEXITSTATUS(status));
}

static void processes_popen(void) {
    char line[20] = "";
    begin();
    FILE *file = popen("sleep 0.03; echo hi; exit 2", "r");
    CHECK(fgets(line, sizeof line, file));
    int status = pclose(file);
    end(WEXITSTATUS(status));
    note("%.2s", line);
}

static void processes_wordexp(void) {
    wordexp_t words;
    begin();
    end(wordexp("$(sleep 0.03; echo a b)", &words, 0));
    note("%zu", words.we_wordc);
}

static void processes_forkpty(void) {
    int terminal;
    char line[20];
    begin();
    pid_t pid = forkpty(&terminal, NULL, NULL, NULL);
    if (pid == 0) {
        usleep(SOON * 1000);
        CHECK(write(1, "hello\n", 6) == 6);
        _exit(0);
    }
    end(read(terminal, line, sizeof line) > 0);
    note("%.5s", line);
}

/* The parent ends, and the child continues in its own session. */
static void processes_daemon(void) {
    int ends[2], status;
    char byte;
    make_pipe(ends);
    begin();
    pid_t pid = fork();
    if (pid == 0) {
        CHECK(!daemon(0, 0));
        usleep(SOON * 1000);
        write_byte((void *)(intptr_t)ends[1]);
        _exit(0);
    }
    waitpid(pid, &status, 0);
    CHECK(read(ends[0], &byte, 1) == 1);
    end(WEXITSTATUS(status));
}

static void processes_wait(void) {
    begin();
    if (fork() == 0) {
        sleep_and_end(3);
    }
    int status;
    end(wait(&status) > 0);
    note("%d", WEXITSTATUS(status));
}

static void processes_wait_none(void) {
    begin();
    end(wait(NULL));
}

static void processes_wait3(void) {
    struct rusage usage;
    int status;
    begin();
    if (fork() == 0) {
        sleep_and_end(3);
    }
    end(wait3(&status, 0, &usage) > 0);
}

static void processes_waitid(void) {
    siginfo_t info;
    begin();
    pid_t pid = fork();
    if (pid == 0) {
        sleep_and_end(9);
    }
    end(waitid(P_PID, (id_t)pid, &info, WEXITED));
    note("%d", info.si_status);
}

static void processes_waitid_kept(void) {
    siginfo_t info;
    begin();
    pid_t pid = fork();
    if (pid == 0) {
        sleep_and_end(9);
    }
    waitid(P_PID, (id_t)pid, &info, WEXITED | WNOWAIT);
    ends_with_child(pid);
}

static void processes_group(void) {
    begin();
    pid_t pid = fork();
    if (pid == 0) {
        setpgid(0, 0);
        sleep_and_end(2);
    }
    setpgid(pid, pid);
    int status;
    end(waitpid(-pid, &status, 0) == pid);
}

static void processes_nohang(void) {
    begin();
    pid_t pid = fork();
    if (pid == 0) {
        sleep_and_end(2);
    }
    end(waitpid(pid, NULL, WNOHANG));
    wait(NULL);
}

static void processes_pidfd(void) {
    begin();
    pid_t pid = fork();
    if (pid == 0) {
        sleep_and_end(2);
    }
    struct pollfd polled = {pidfd_open(pid, 0), POLLIN, 0};
    end(poll(&polled, 1, LONG));
}

static void processes_pidfd_signal(void) {
    int status;
    begin();
    pid_t pid = fork();
    if (pid == 0) {
        pause();
    }
    int fd = pidfd_open(pid, 0);
    usleep(SOON * 1000);
    pidfd_send_signal(fd, SIGTERM, NULL, 0);
    waitpid(pid, &status, 0);
    end(WTERMSIG(status));
}

static void processes_killed(void) {
    int status;
    begin();
    pid_t pid = fork();
    if (pid == 0) {
        usleep(LONG * 1000);
        _exit(0);
    }
    usleep(SOON * 1000);
    kill(pid, SIGKILL);
    waitpid(pid, &status, 0);
    end(WTERMSIG(status));
}

static void *end_process(void *nothing) {
    usleep(SOON * 1000);
    _exit(11);
    return nothing;
}

static void processes_thread_ends(void) {
    begin();
    pid_t pid = fork();
    if (pid == 0) {
        pthread_t thread;
        pthread_create(&thread, NULL, end_process, NULL);
        pause();
    }
    ends_with_child(pid);
}

/* The first thread of a process ends before the other threads. */
static void processes_main_ends(void) {
    begin();
    pid_t pid = fork();
    if (pid == 0) {
        pthread_t thread;
        pthread_create(&thread, NULL, end_process, NULL);
        pthread_exit(NULL);
    }
    ends_with_child(pid);
}

static void processes_exec(void) {
    begin();
    pid_t pid = fork();
    if (pid == 0) {
        execlp("sh", "sh", "-c", "sleep 0.03; exit 8", NULL);
        _exit(1);
    }
    ends_with_child(pid);
}

static void processes_ignored(void) {
    signal(SIGCHLD, SIG_IGN);
    begin();
    if (fork() == 0) {
        sleep_and_end(2);
    }
    end(wait(NULL));
}

const struct wait processes[] = {
    {"processes_fork", SOON, processes_fork},
    {"processes_vfork", SOON, processes_vfork},
    {"processes_raw_fork", SOON, processes_raw_fork},
    {"processes_clone", SOON, processes_clone},
    {"processes_spawn", SOON, processes_spawn},
    {"processes_system", SOON, processes_system},
    {"processes_popen", SOON, processes_popen},
    {"processes_wordexp", SOON, processes_wordexp},
    {"processes_forkpty", SOON, processes_forkpty},
    {"processes_daemon", SOON, processes_daemon},
    {"processes_wait", SOON, processes_wait},
    {"processes_wait_none", 0, processes_wait_none},
    {"processes_wait3", SOON, processes_wait3},
    {"processes_waitid", SOON, processes_waitid},
    {"processes_waitid_kept", SOON, processes_waitid_kept},
    {"processes_group", SOON, processes_group},
    {"processes_nohang", 0, processes_nohang},
    {"processes_pidfd", SOON, processes_pidfd},
    {"processes_pidfd_signal", SOON, processes_pidfd_signal},
    {"processes_killed", SOON, processes_killed},
    {"processes_thread_ends", SOON, processes_thread_ends},
    {"processes_main_ends", SOON, processes_main_ends},
    {"processes_exec", SOON, processes_exec},
    {"processes_ignored", SOON, processes_ignored},
    {NULL, 0, NULL},
};
