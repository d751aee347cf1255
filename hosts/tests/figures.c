/* Times of the library, in microseconds of the calling thread's processor: of a check of each kernel that is named, and of asking before a
 * launch, beside the launch itself.
 *
 * usage: figures [NAME KERNEL CONDITIONS CERTIFICATE ..] */
#define _GNU_SOURCE
#include <time.h>
#include "trial.h"
#include "kernels.h"

#define ROUNDS 200
#define CALLS 100

typedef struct {
    char *bytes;
    size_t n;
} text;

static text text_of(const char *path) {
    text t = {NULL, 0};
    FILE *file = fopen(path, "rb");
    if (!file || fseek(file, 0, SEEK_END)) exit(2);
    t.bytes = (char *)malloc((size_t)ftell(file) + 1);
    rewind(file);
    if (t.bytes) t.n = fread(t.bytes, 1, (1 << 25), file);
    fclose(file);
    return t;
}

static double now(void) {
    struct timespec t;
    clock_gettime(CLOCK_THREAD_CPUTIME_ID, &t);
    return (double)t.tv_sec * 1e6 + (double)t.tv_nsec / 1e3;
}

/* The least time of a check in several rounds, each of so many calls that a clock tells them. */
static double time_of_check(const text *k, const text *c, const text *p) {
    kv_answer answer;
    double least = 1e12;
    int calls = 1;
    for (int round = 0; round < 5; round++) {
        double begun = now(), took;
        for (int i = 0; i < calls; i++)
            if (kv_check(k->bytes, k->n, c->bytes, c->n, p->bytes, p->n, 0, &answer)) return -(double)answer.number;
        took = (now() - begun) / calls;
        least = took < least ? took : least;
        calls = took < 10000 ? (int)(10000 / (took + 1)) + 1 : 1;
    }
    return least;
}

static void check_all(int n, char **words) {
    for (int i = 0; i + 3 < n; i += 4) {
        text k = text_of(words[i + 1]), c = text_of(words[i + 2]), p = text_of(words[i + 3]);
        printf("check %s %.1f\n", words[i], time_of_check(&k, &c, &p));
        fflush(stdout);
        free(k.bytes);
        free(c.bytes);
        free(p.bytes);
    }
}

/* A launch of csr_row, with eight arguments and five `values` lines. */
static void beside_launches(trial *t) {
    const size_t global[1] = {64}, local[1] = {64};
    const cl_uint zeros[8] = {0}, sizes[3] = {3, 4, 5};
    double asked = 0, launched = 0;
    kv_range range = {1, 0, {0, 0, 0}, {64, 1, 1}, {64, 1, 1}};
    kv_cl k;
    stop_if(kv_cl_open(&k, t->context, t->device, KV_KERNEL(csr_row), 0), "csr_row");
    for (cl_uint i = 0; i < 8; i++) {
        if (i < 5)
            stop_if(kv_cl_buffer(&k, i, buffer_of(t, zeros, sizeof zeros)), "buffer");
        else
            stop_if(kv_cl_value(&k, i, &sizes[i - 5], sizeof(cl_uint)), "value");
    }
    stop_if(kv_cl_enqueue(&k, t->queue, 1, NULL, global, local, KV_HELD, 0, NULL, NULL), "launch");
    for (int round = 0; round < ROUNDS; round++) {
        double begun = now();
        for (int i = 0; i < CALLS; i++)
            if (kv_allows(k.checked, KV_HELD, &range, k.arguments, k.arguments_n, &k.answer)) exit(2);
        asked += now() - begun;
        begun = now();
        for (int i = 0; i < CALLS; i++)
            stop_if(clEnqueueNDRangeKernel(t->queue, k.kernel, 1, NULL, global, local, 0, NULL, NULL), "launch");
        launched += now() - begun;
        clFinish(t->queue);
    }
    printf("allows %.3f\nenqueue %.3f\n", asked / ROUNDS / CALLS, launched / ROUNDS / CALLS);
    kv_cl_close(&k);
}

int main(int n, char **words) {
    trial t = trial_of_first_device();
    check_all(n - 1, words + 1);
    beside_launches(&t);
    return 0;
}
