// malloc and realloc refuse one call of each command that stands behind a mark: of the first the call number FIRST, of the next the next
// one, or the one that is STEP behind. Without marks the one of the whole program is refused. With TELL the calls of each command are told;
// with NO_THREAD none starts; with READ or WRITE the one of this number fails.
#define _GNU_SOURCE
#include <dlfcn.h>
#include <errno.h>
#include <pthread.h>
#include <stdlib.h>
#include <sys/syscall.h>
#include <unistd.h>

static size_t mark;
static long calls, refused_call, next_call, step = 1, tells, reads, writes, failing_read, failing_write;
static int is_set;
static void *(*real_malloc)(size_t);
static void *(*real_realloc)(void *, size_t);

static void set(void) {
    const char *it;
    is_set = 1;
    real_malloc = (void *(*)(size_t))dlsym(RTLD_NEXT, "malloc");
    real_realloc = (void *(*)(void *, size_t))dlsym(RTLD_NEXT, "realloc");
    if ((it = getenv("HOSTILE_FIRST"))) refused_call = atol(it);
    if ((it = getenv("HOSTILE_MARK"))) mark = atol(it), next_call = refused_call, refused_call = 0;
    if ((it = getenv("HOSTILE_STEP"))) step = atol(it);
    tells = getenv("HOSTILE_TELL") != 0;
    if ((it = getenv("HOSTILE_READ"))) failing_read = atol(it);
    if ((it = getenv("HOSTILE_WRITE"))) failing_write = atol(it);
}

static void tell(long number) {
    char digits[24];
    int at = sizeof digits;
    digits[--at] = '\n';
    do digits[--at] = '0' + number % 10; while (number /= 10);
    if (write(2, digits + at, sizeof digits - at) < 0) return;
}

static int refuses(size_t size) {
    if (!is_set) set();
    long call = __atomic_add_fetch(&calls, 1, __ATOMIC_SEQ_CST);
    if (!mark || size != mark) return call == refused_call;
    // (the file's text is taken twice: behind the second time the command comes)
    refused_call = call == 1 ? next_call : 0;
    if (refused_call) next_call += step;
    if (call != 1 && tells) tell(call - 1);
    calls = 0;
    return 0;
}

void *malloc(size_t size) { return refuses(size) ? 0 : real_malloc(size); }

void *realloc(void *old, size_t size) { return refuses(size) ? 0 : real_realloc(old, size); }

// Reads and writes of files move ten bytes at most; the one of a number fails.
ssize_t read(int file, void *to, size_t count) {
    if (!is_set) set();
    if (failing_read && file > 2) {
        if (++reads == failing_read) return errno = EIO, -1;
        if (count > 10) count = 10;
    }
    return syscall(SYS_read, file, to, count);
}

ssize_t write(int file, const void *from, size_t count) {
    if (!is_set) set();
    if (failing_write && file > 2) {
        if (++writes == failing_write) return errno = ENOSPC, -1;
        if (count > 10) count = 10;
    }
    return syscall(SYS_write, file, from, count);
}

int pthread_create(pthread_t *thread, const pthread_attr_t *how, void *(*start)(void *), void *with) {
    if (getenv("HOSTILE_NO_THREAD")) return EAGAIN;
    int (*real)(pthread_t *, const pthread_attr_t *, void *(*)(void *), void *) =
        (int (*)(pthread_t *, const pthread_attr_t *, void *(*)(void *), void *))dlsym(RTLD_NEXT, "pthread_create");
    return real(thread, how, start, with);
}
