/* process.c: the program `kverify`, as a process of its own.
 *
 * Its texts lie in memory that has a name for the system alone (memfd), so no file is left behind. The process is in a group of its own, so
 * that all of it can be ended, and ends with the program. The program does not see it: no SIGCHLD comes, and no wait() finds it, since its
 * parent is a process in between, which tells nobody of its end. (A process that another program was loaded into always tells.) Only the
 * thread that asks comes here, and it stands still meanwhile. */
#define _GNU_SOURCE
#include "layer.h"
#include <errno.h>
#include <fcntl.h>
#include <poll.h>
#include <sched.h>
#include <signal.h>
#include <sys/mman.h>
#include <sys/prctl.h>
#include <sys/syscall.h>
#include <sys/wait.h>
#include <unistd.h>

#define FILES 5
enum { KERNEL, CONDITIONS, CERTIFICATE, OUTPUT, NOTHING };
#define STACK 65536

struct start {
    char *words[16];
    int files[FILES];
    double deadline;
    enum ending ending;
};

/* No handler of the program may run in the new process, whose memory is the program's until it has started. These are calls of the system
 * itself, since what stands between (a sanitizer, say) would take them for the program's own. */
static void forget_handlers(void) {
    uint64_t action[4] = {0}, none = 0;
    int number;
    for (number = 1; number <= 64; number++) syscall(SYS_rt_sigaction, number, action, NULL, sizeof none);
    syscall(SYS_rt_sigprocmask, SIG_SETMASK, &none, NULL, sizeof none);
}

__attribute__((no_sanitize("address", "thread"))) static int begin(void *given) {
    struct start *start = given;
    int at;
    setpgid(0, 0);
    prctl(PR_SET_PDEATHSIG, SIGKILL);
    forget_handlers();
    dup2(start->files[NOTHING], 0);
    dup2(start->files[OUTPUT], 1);
    dup2(start->files[NOTHING], 2);
    close_range(3, ~0u, CLOSE_RANGE_CLOEXEC);
    for (at = KERNEL; at <= CERTIFICATE; at++) fcntl(start->files[at], F_SETFD, 0);
    execvp(start->words[0], start->words);
    _exit(127);
}

static bool open_files(struct start *start, const struct source *source, const struct text *conditions) {
    int at;
    for (at = 0; at < NOTHING; at++) start->files[at] = memfd_create("kverify", MFD_CLOEXEC);
    start->files[NOTHING] = open("/dev/null", O_RDWR | O_CLOEXEC);
    for (at = 0; at < FILES; at++)
        if (start->files[at] < 3) return false;
    return write(start->files[KERNEL], source->bytes, source->n) == (ssize_t)source->n &&
           write(start->files[CONDITIONS], conditions->bytes, conditions->n) == (ssize_t)conditions->n;
}

/* Waits for a process, at most to the deadline, and ends it then. */
static enum ending wait_for(pid_t process, int file, double deadline) {
    enum ending ending = ENDED;
    int status = 0;
    for (;;) {
        struct pollfd watched = {.fd = file, .events = POLLIN};
        double left = deadline - seconds_now();
        if (left <= 0) ending = TOO_LONG;
        if (left <= 0 || poll(&watched, 1, left > 1 ? 1000 : (int)(left * 1000) + 1) > 0) break;
    }
    kill(-process, SIGKILL);
    while (waitpid(process, &status, __WALL) < 0 && errno == EINTR) continue;
    return ending == ENDED && WIFEXITED(status) && WEXITSTATUS(status) == 127 ? NOT_STARTED : ending;
}

/* The process in between. Its memory is the program's, whose thread stands still until it has ended. */
__attribute__((no_sanitize("address", "thread"))) static int supervise(void *given) {
    static char stack[STACK] __attribute__((aligned(64)));
    struct start *start = given;
    int file = -1;
    pid_t process;
    prctl(PR_SET_PDEATHSIG, SIGKILL);
    process = clone(begin, stack + STACK, CLONE_VM | CLONE_VFORK | CLONE_PIDFD | SIGCHLD, start, &file);
    if (process < 0) _exit(0);
    /* (what the program closes is to be closed) */
    if (file > 0) close_range(0, (unsigned)file - 1, 0);
    close_range((unsigned)file + 1, ~0u, 0);
    start->ending = wait_for(process, file, start->deadline);
    _exit(0);
}

static void start_and_wait(struct start *start) {
    static char stack[STACK] __attribute__((aligned(64)));
    pid_t process = clone(supervise, stack + STACK, CLONE_VM | CLONE_VFORK, start);
    while (process >= 0 && waitpid(process, NULL, __WALL) < 0 && errno == EINTR) continue;
}

enum ending process_run(const char *command, const struct source *source, const struct text *conditions, struct text *output,
                        struct text *certificate, double deadline) {
    char paths[CERTIFICATE + 1][40], *out = certificate ? (char *)"--out" : NULL;
    struct start start = {{(char *)settings.program, (char *)command, paths[KERNEL], paths[CONDITIONS], (char *)"--wide",
                           (char *)"--opencl", (char *)"--devices", (char *)"any", out, paths[CERTIFICATE], NULL},
                          {-1, -1, -1, -1, -1}, deadline, NOT_STARTED};
    int at;
    if (open_files(&start, source, conditions)) {
        for (at = KERNEL; at <= CERTIFICATE; at++) snprintf(paths[at], sizeof paths[at], "/proc/self/fd/%d", start.files[at]);
        start_and_wait(&start);
        if (!text_read_file(output, start.files[OUTPUT])) output->is_short = true;
        if (certificate && !text_read_file(certificate, start.files[CERTIFICATE])) certificate->is_short = true;
    }
    for (at = 0; at < FILES; at++)
        if (start.files[at] >= 0) close(start.files[at]);
    return start.ending;
}
