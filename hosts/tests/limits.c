/* The library at its limits: many threads at once, each allocation refused in turn, texts of no bytes and of too many, and a stack of
 * KV_STACK bytes. No OpenCL. To be linked with -Wl,--wrap=malloc,--wrap=realloc,--wrap=free and with -pthread. */
#define _GNU_SOURCE
#include <pthread.h>
#include <stdatomic.h>
#include <stdio.h>
#include <stdlib.h>
#include <string.h>
#include "kverify.h"
#include "kernels.h"

#define THREADS 64
#define TURNS 50

/* What the allocator of this test refuses: the allocation before which so many are left; none below 0. And what is not freed yet. */
static atomic_long left_before_refusal = -1, allocations, not_freed;

void *__real_malloc(size_t bytes);
void *__real_realloc(void *memory, size_t bytes);
void __real_free(void *memory);
void *__wrap_malloc(size_t bytes);
void *__wrap_realloc(void *memory, size_t bytes);
void __wrap_free(void *memory);

static int is_refused(void) {
    atomic_fetch_add(&allocations, 1);
    return atomic_load(&left_before_refusal) >= 0 && atomic_fetch_sub(&left_before_refusal, 1) == 0;
}

void *__wrap_malloc(size_t bytes) {
    void *made = is_refused() ? NULL : __real_malloc(bytes);
    if (made) atomic_fetch_add(&not_freed, 1);
    return made;
}

void *__wrap_realloc(void *memory, size_t bytes) {
    void *made = is_refused() ? NULL : __real_realloc(memory, bytes);
    if (made && !memory) atomic_fetch_add(&not_freed, 1);
    return made;
}

void __wrap_free(void *memory) {
    if (memory) atomic_fetch_sub(&not_freed, 1);
    __real_free(memory);
}

typedef struct {
    unsigned passed, failed;
} tally;

static void expect(tally *t, int is_right, const char *what) {
    printf("%s: %s\n", is_right ? "ok" : "FAILED", what);
    if (is_right)
        t->passed++;
    else
        t->failed++;
}

/* A launch of csr_row with 3 rows, 4 columns and 5 places. */
typedef struct {
    kv_range range;
    kv_argument given[8];
} launch;

static launch right_launch(void) {
    static const uint64_t lengths[5] = {3, 4, 5, 5, 4};
    launch made;
    memset(&made, 0, sizeof made);
    made.range.dimensions = 1;
    made.range.global[0] = made.range.local[0] = 64;
    for (uint32_t i = 0; i < 8; i++) {
        made.given[i].kind = i < 5 ? KV_BUFFER : KV_VALUE;
        made.given[i].bytes = i < 5 ? 4 * lengths[i] : 4;
        made.given[i].memory = i < 5 ? i + 1 : 0;
        made.given[i].words[0] = i < 5 ? 0 : i - 2;
    }
    return made;
}

/* The same launch as a text, and the buffers with which it ends. */
static const char RUN[] = "launch 1\ngroups 1 1 1\narg rows 3\narg width 4\narg places 5\nbuffer out fill 3 0\nbuffer begins list 0 2 2 5\n"
                          "buffer columns list 0 3 1 2 3\nbuffer weights list 1 -2 3 4 5\nbuffer vector list 10 20 30 40\nfill 0\n";
static const char ENDS[] = "buffer out list -70 0 380\nbuffer begins list 0 2 2 5\nbuffer columns list 0 3 1 2 3\n"
                           "buffer weights list 1 -2 3 4 5\nbuffer vector list 10 20 30 40\n";

/* What a run of csr_row is answered, whose text has so many bytes of these; 1000 where what is told beside is wrong. */
static uint32_t run_of(const char *text, size_t text_n, uint64_t place) {
    char room[200];
    uint64_t whole = 7;
    kv_answer answer;
    uint32_t number = kv_run(KV_KERNEL(csr_row), text, text_n, 0, room, sizeof room, &whole, &answer);
    if (number != answer.number) return 1000;
    if (number) return whole == 0 && answer.place == place ? number : 1000;
    return whole == sizeof ENDS - 1 && memcmp(room, ENDS, whole) == 0 ? 0 : 1000;
}

/* Threads. */

typedef struct {
    const kv_kernel *handle;
    unsigned wrong;
} worker;

static void *all_calls(void *given) {
    worker *w = (worker *)given;
    for (int turn = 0; turn < TURNS; turn++) {
        launch l = right_launch();
        kv_answer answer;
        w->wrong += kv_allows(w->handle, KV_HELD, &l.range, l.given, 8, &answer) != 0;
        w->wrong += kv_allows(w->handle, 0, &l.range, l.given, 8, &answer) != KV_UNSAID || answer.place != 11;
        w->wrong += kv_check(KV_KERNEL(csr_row), 0, &answer) != 0;
        w->wrong += kv_check(KV_TEXT(guard), KV_CONDITIONS(guard), KV_CERTIFICATE(csr_row), 0, &answer) != 52;
        w->wrong += kv_meets(KV_TEXT(csr_row), KV_CONDITIONS(csr_row), KV_HELD, &l.range, l.given, 8, &answer) != 0;
        w->wrong += run_of(RUN, sizeof RUN - 1, 0) != 0;
    }
    return NULL;
}

static void many_threads(tally *t) {
    pthread_t threads[THREADS];
    worker workers[THREADS];
    kv_kernel *handle = NULL;
    kv_answer answer;
    unsigned wrong = kv_open(KV_KERNEL(csr_row), 0, &handle, &answer);
    for (int i = 0; i < THREADS && !wrong; i++) {
        workers[i].handle = handle;
        workers[i].wrong = 0;
        if (pthread_create(&threads[i], NULL, all_calls, &workers[i])) exit(2);
    }
    for (int i = 0; i < THREADS && handle; i++) {
        pthread_join(threads[i], NULL);
        wrong += workers[i].wrong;
    }
    expect(t, wrong == 0, "64 threads at once: each answer of 19,200 is right");
    if (handle) kv_close(handle);
}

/* Allocations that fail. */

typedef uint32_t call(void);

static uint32_t checks(void) {
    kv_answer answer;
    uint32_t number = kv_check(KV_KERNEL(csr_row), 0, &answer);
    return number == answer.number ? number : 1000;
}

static uint32_t checks_of_opencl(void) {
    kv_answer answer;
    return kv_check(KV_KERNEL(group_sums), 0, &answer);
}

static uint32_t meets(void) {
    launch l = right_launch();
    kv_answer answer;
    return kv_meets(KV_TEXT(csr_row), KV_CONDITIONS(csr_row), KV_HELD, &l.range, l.given, 8, &answer);
}

static uint32_t opens(void) {
    launch l = right_launch();
    kv_answer answer;
    kv_kernel *handle = NULL;
    uint32_t number = kv_open(KV_KERNEL(csr_row), 0, &handle, &answer);
    if (number) return number == answer.number && !handle ? number : 1000;
    number = kv_allows(handle, KV_HELD, &l.range, l.given, 8, &answer);
    kv_close(handle);
    return number == answer.number ? number : 1000;
}

static uint32_t explains(void) {
    static const char accepted[] = "accepted\n", memory[] = "out of memory\n";
    char room[4000];
    uint64_t n = kv_explain(KV_KERNEL(csr_row), 0, room, sizeof room);
    if (n == sizeof accepted - 1 && memcmp(room, accepted, n) == 0) return 0;
    return n == sizeof memory - 1 && memcmp(room, memory, n) == 0 ? KV_MEMORY : 1000;
}

static uint32_t runs(void) {
    return run_of(RUN, sizeof RUN - 1, 0);
}

static void refuse_each(tally *t, call *calls, const char *name) {
    char what[120];
    long count, memory = 0, whole = 0, before = atomic_load(&not_freed);
    int is_right;
    atomic_store(&allocations, 0);
    is_right = calls() == 0;
    count = atomic_load(&allocations);
    for (long n = 0; n < count; n++) {
        uint32_t number;
        atomic_store(&left_before_refusal, n);
        number = calls();
        atomic_store(&left_before_refusal, -1);
        memory += number == KV_MEMORY;
        whole += number == 0;
        is_right = is_right && (number == KV_MEMORY || number == 0) && atomic_load(&not_freed) == before;
    }
    snprintf(what, sizeof what, "%s: of %ld allocations each refused in turn, %ld times 90, %ld times the answer, and all freed", name,
             count, memory, whole);
    expect(t, is_right && count > 0 && memory > 0 && atomic_load(&not_freed) == before, what);
}

static void refused_allocations(tally *t) {
    refuse_each(t, checks, "kv_check");
    refuse_each(t, checks_of_opencl, "kv_check of OpenCL C");
    refuse_each(t, meets, "kv_meets");
    refuse_each(t, opens, "kv_open, kv_allows and kv_close");
    refuse_each(t, explains, "kv_explain");
    refuse_each(t, runs, "kv_run");
}

/* Texts of no bytes, and of too many. */

static void expect_answer(tally *t, uint32_t number, uint32_t wanted, const char *what) {
    if (number != wanted) printf("%u, where %u was due, ", number, wanted);
    expect(t, number == wanted, what);
}

static void long_texts(tally *t) {
    enum { LONG = (1 << 24) + 1, LONG_KERNEL = (1 << 20) + 1, LONG_CONDITIONS = (1 << 16) + 1 };
    char *blanks = (char *)malloc(LONG);
    kv_answer a;
    if (!blanks) exit(2);
    memset(blanks, ' ', LONG);
    expect_answer(t, kv_check("", 0, "", 0, "", 0, 0, &a), 10, "three texts of no bytes are 10");
    expect_answer(t, kv_check(KV_TEXT(guard), "", 0, KV_CERTIFICATE(guard), 0, &a), 32, "conditions of no bytes are 32");
    expect_answer(t, kv_check(KV_TEXT(guard), KV_CONDITIONS(guard), "", 0, 0, &a), 50, "a certificate of no bytes is 50");
    expect_answer(t, kv_check(blanks, LONG_KERNEL, KV_CONDITIONS(guard), KV_CERTIFICATE(guard), 0, &a), 5, "a kernel too long is 5");
    expect_answer(t, kv_check(KV_TEXT(guard), blanks, LONG_CONDITIONS, KV_CERTIFICATE(guard), 0, &a), 34, "conditions too long are 34");
    expect_answer(t, kv_check(KV_TEXT(guard), KV_CONDITIONS(guard), blanks, LONG, 0, &a), 50, "a certificate too long is 50");
    expect(t, kv_options("", 0, blanks, 0) == 0 && kv_options(blanks, LONG_CONDITIONS, blanks, 0) == 0, "such conditions have no options");
    expect(t, kv_explain("", 0, "", 0, "", 0, 0, blanks, 1) > 1 && blanks[0] == 'r' && blanks[1] == ' ', "a room of one byte gets one");
    free(blanks);
}

/* What a launch of csr_row is answered, with so many of these arguments. */
static uint32_t met(const launch *l, const kv_argument *given, size_t n) {
    kv_answer answer;
    return kv_meets(KV_TEXT(csr_row), KV_CONDITIONS(csr_row), KV_HELD, &l->range, given, n, &answer);
}

static void odd_arguments(tally *t) {
    launch l = right_launch();
    kv_argument *many = (kv_argument *)calloc(100000, sizeof *many);
    if (!many) exit(2);
    expect_answer(t, met(&l, l.given, 0), KV_ARGUMENTS, "no arguments are 41");
    memcpy(many, l.given, sizeof l.given);
    expect_answer(t, met(&l, many, 100000), KV_ARGUMENTS, "100,000 arguments are 41");
    l.given[0].kind = 3;
    expect_answer(t, met(&l, l.given, 8), KV_ARGUMENTS, "a fourth kind is 41");
    l = right_launch();
    l.range.dimensions = 0;
    expect_answer(t, met(&l, l.given, 8), KV_SIZES, "no dimension is 42");
    l.range.dimensions = 1;
    l.range.global[0] = 0;
    expect(t, met(&l, l.given, 8) != 0, "no work-item is refused");
    l.range.global[0] = 64;
    l.range.global[1] = l.range.local[1] = l.range.offset[1] = 7;
    expect_answer(t, met(&l, l.given, 8), 0, "what is past the dimensions is not read");
    free(many);
}

/* Runs on the calling thread. */
static void small_runs(tally *t) {
    char changed[sizeof RUN], room[3] = "xyz";
    uint64_t whole;
    kv_answer a;
    expect_answer(t, run_of(RUN, sizeof RUN - 1, 0), 0, "csr_row ends with these buffers");
    expect_answer(t, run_of(RUN, 0, 1), 32, "a launch of no bytes is 32, at line 1");
    memcpy(changed, RUN, sizeof RUN);
    memcpy(strstr(changed, "begins list 0 2") + 14, "9", 1);
    expect_answer(t, run_of(changed, sizeof RUN - 1, 11), KV_UNMET, "a buffer that does not hold what a `values` line says is 40");
    expect_answer(t, kv_run(KV_KERNEL(csr_row), RUN, sizeof RUN - 1, 0, room, 2, &whole, &a), 0, "a room of two bytes is enough to run");
    expect(t, whole == sizeof ENDS - 1 && memcmp(room, "buz", 3) == 0, "and two bytes are put there");
    expect_answer(t, kv_run(KV_TEXT(guard), KV_CONDITIONS(guard), KV_CERTIFICATE(csr_row), RUN, sizeof RUN - 1, 0, room, 2, &whole, &a), 52,
                  "a certificate of another kernel is 52");
}

/* The stack of a thread. */

/* A kernel as deep as its grammar has it: blocks and loops, and brackets one inside another. */
static char *deep_kernel(char *at, int levels, int brackets) {
    at += sprintf(at, "__kernel __attribute__((reqd_work_group_size(1, 1, 1))) void k(__global uint *a, uint n) {\n");
    for (int i = 0; i < levels; i++)
        at += i % 4 == 3 ? sprintf(at, "for (uint i%d = 0u; i%d < n; i%d += 1u) {\n", i, i, i) : sprintf(at, "{\n");
    at += sprintf(at, "a[0] = ");
    for (int i = 0; i < brackets; i++) at += sprintf(at, "(1u + ");
    at += sprintf(at, "n");
    for (int i = 0; i < brackets; i++) at += sprintf(at, ")");
    at += sprintf(at, ";\n");
    for (int i = 0; i < levels; i++) at += sprintf(at, "}\n");
    return at + sprintf(at, "}\n");
}

typedef struct {
    const char *kernel, *conditions, *certificate;
    size_t kernel_n, conditions_n, certificate_n;
    uint32_t answers;
} deep_texts;

static void *deep_calls(void *given) {
    deep_texts *d = (deep_texts *)given;
    static const char deep_launch[] = "launch 1\ngroups 1 1 1\narg n 3\nbuffer a fill 64 0\nfill 0\n";
    launch l = right_launch();
    char room[100];
    uint64_t whole;
    kv_answer a;
    d->answers = kv_check(d->kernel, d->kernel_n, d->conditions, d->conditions_n, d->certificate, d->certificate_n, 0, &a);
    kv_explain(d->kernel, d->kernel_n, d->conditions, d->conditions_n, d->certificate, d->certificate_n, 0, room, sizeof room);
    kv_meets(d->kernel, d->kernel_n, d->conditions, d->conditions_n, 0, &l.range, l.given, 2, &a);
    kv_run(d->kernel, d->kernel_n, d->conditions, d->conditions_n, d->certificate, d->certificate_n, deep_launch, sizeof deep_launch - 1, 0,
           room, sizeof room, &whole, &a);
    return NULL;
}

/* Calls in a thread with KV_STACK bytes, and gives how many of them were written to. */
static size_t stack_of(deep_texts *d) {
    enum { SPARE = 1 << 24, MARK = 0xa5 };
    unsigned char *stack = (unsigned char *)aligned_alloc(4096, KV_STACK + SPARE);
    pthread_attr_t how;
    pthread_t thread;
    size_t unused = 0;
    if (!stack) exit(2);
    memset(stack, MARK, KV_STACK + SPARE);
    pthread_attr_init(&how);
    if (pthread_attr_setstack(&how, stack + SPARE, KV_STACK) || pthread_create(&thread, &how, deep_calls, d)) exit(2);
    pthread_join(thread, NULL);
    while (unused < KV_STACK + SPARE && stack[unused] == MARK) unused++;
    free(stack);
    return KV_STACK + SPARE - unused;
}

static void small_stack(tally *t) {
    static const char conditions[] = "conditions 1\ngroups 1..1 1..1 1..1\narg n 0..5\nlength a >= 64\nbudget 100000\n";
    static const char certificate[] = "certificate 2\nend\n";
    static const int levels[] = {0, 10, 20, 24, 26, 28, 29, 30}, brackets[] = {0, 6, 20, 40, 60};
    char *text = (char *)malloc(1 << 16), what[120];
    size_t most = 0;
    if (!text) exit(2);
    for (size_t i = 0; i < sizeof levels / sizeof *levels; i++)
        for (size_t k = 0; k < sizeof brackets / sizeof *brackets; k++) {
            deep_texts d = {text, conditions, certificate, 0, sizeof conditions - 1, sizeof certificate - 1, 0};
            size_t used;
            d.kernel_n = (size_t)(deep_kernel(text, levels[i], brackets[k]) - text);
            used = stack_of(&d);
            most = used > most ? used : most;
        }
    snprintf(what, sizeof what, "deep texts: at most %zu KiB of a stack of %u KiB", most >> 10, KV_STACK >> 10);
    expect(t, most <= KV_STACK, what);
    free(text);
}

int main(void) {
    tally t = {0, 0};
    many_threads(&t);
    refused_allocations(&t);
    long_texts(&t);
    odd_arguments(&t);
    small_runs(&t);
    small_stack(&t);
    printf("%u passed, %u failed\n", t.passed, t.failed);
    return t.failed || !t.passed;
}
