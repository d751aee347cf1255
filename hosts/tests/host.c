/* A host in C on OpenCL: kernels with their conditions and certificates stand in it. Each is launched with right results, and each refusal
 * of a launch comes before it. */
#include "trial.h"
#ifndef KERNELS
#define KERNELS "kernels.h"
#endif
#include KERNELS

#define OPEN(k, t, name) stop_if(kv_cl_open(k, (t)->context, (t)->device, KV_KERNEL(name), 0), #name)

static const size_t two_groups[1] = {128}, one_group[1] = {64}, of_64[1] = {64};

/* A launch in one dimension in groups of 64. */
static cl_int launch(trial *t, kv_cl *k, const size_t *global, uint32_t held) {
    return kv_cl_enqueue(k, t->queue, 1, NULL, global, of_64, held, 0, NULL, NULL);
}

static void expect_launch(trial *t, const char *what, cl_int answer) {
    if (answer) printf("answer %d, ", (int)answer);
    expect(t, answer == 0, what);
}

static void expect_refusal(trial *t, const char *what, const kv_cl *k, cl_int answer, uint32_t number, uint64_t place) {
    int is_right = answer == (cl_int)number && k->answer.number == number && k->answer.place == place;
    if (!is_right) printf("answer %d, place %llu, ", (int)answer, (unsigned long long)k->answer.place);
    expect(t, is_right, what);
}

static void set_word(kv_cl *k, cl_uint index, cl_uint word) {
    stop_if(kv_cl_value(k, index, &word, sizeof word), "value");
}

static void set_buffer(kv_cl *k, cl_uint index, cl_mem buffer) {
    stop_if(kv_cl_buffer(k, index, buffer), "buffer");
}

static void fills(trial *t) {
    cl_uint zeros[128] = {0}, sevens[128];
    cl_mem a = buffer_of(t, zeros, sizeof zeros);
    kv_cl k;
    for (int i = 0; i < 128; i++) sevens[i] = 7;
    OPEN(&k, t, fill);
    set_buffer(&k, 0, a);
    set_word(&k, 1, 7);
    expect_launch(t, "fill is launched", launch(t, &k, two_groups, 0));
    expect_content(t, "fill fills", a, sevens, sizeof sevens);
    set_word(&k, 1, 1001);
    expect_refusal(t, "a value past its range is 40 at its line", &k, launch(t, &k, two_groups, 0), KV_UNMET, 3);
    expect_content(t, "nothing was launched", a, sevens, sizeof sevens);
    kv_cl_close(&k);
    clReleaseMemObject(a);
}

static void refuses_sizes(trial *t, kv_cl *k) {
    const size_t broken[1] = {100}, many[1] = {64 * 1025}, of_32[1] = {32}, offset[1] = {64};
    cl_int answer = launch(t, k, broken, 0);
    expect_refusal(t, "100 items in groups of 64 are 42", k, answer, KV_SIZES, 0);
    expect_refusal(t, "1025 groups are 40", k, launch(t, k, many, 0), KV_UNMET, 2);
    answer = kv_cl_enqueue(k, t->queue, 1, NULL, two_groups, of_32, 0, 0, NULL, NULL);
    expect_refusal(t, "groups of 32 are 42", k, answer, KV_SIZES, 0);
    answer = kv_cl_enqueue(k, t->queue, 1, NULL, two_groups, NULL, 0, 0, NULL, NULL);
    expect_refusal(t, "no size of a group is 42", k, answer, KV_SIZES, 0);
    answer = kv_cl_enqueue(k, t->queue, 1, offset, one_group, of_64, 0, 0, NULL, NULL);
    expect_refusal(t, "an offset is 43", k, answer, KV_OFFSET, 0);
}

static void refuses_arguments(trial *t, kv_cl *k, cl_mem a) {
    cl_ulong wide = 100;
    stop_if(kv_cl_value(k, 1, &wide, sizeof wide), "value");
    expect_refusal(t, "eight bytes for a uint are 41", k, launch(t, k, two_groups, 0), KV_ARGUMENTS, 1);
    set_buffer(k, 1, a);
    expect_refusal(t, "a buffer for a uint is 41", k, launch(t, k, two_groups, 0), KV_ARGUMENTS, 1);
    stop_if(kv_cl_local(k, 1, 4), "local");
    expect_refusal(t, "local memory for a uint is 41", k, launch(t, k, two_groups, 0), KV_ARGUMENTS, 1);
    set_word(k, 0, 1);
    set_word(k, 1, 100);
    expect_refusal(t, "a uint for a buffer is 41", k, launch(t, k, two_groups, 0), KV_ARGUMENTS, 0);
    expect(t, kv_cl_value(k, 2, &wide, 4) == CL_INVALID_ARG_INDEX, "there is no third argument");
    set_buffer(k, 0, a);
}

static void guards(trial *t) {
    cl_uint numbers[100], more[100];
    cl_mem a;
    kv_cl k;
    for (cl_uint i = 0; i < 100; i++) more[i] = (numbers[i] = i * i) + 1;
    a = buffer_of(t, numbers, sizeof numbers);
    OPEN(&k, t, guard);
    set_buffer(&k, 0, a);
    expect_refusal(t, "an argument that was not set is 41", &k, launch(t, &k, two_groups, 0), KV_ARGUMENTS, 1);
    set_word(&k, 1, 101);
    expect_refusal(t, "n past the buffer's end is 40", &k, launch(t, &k, two_groups, 0), KV_UNMET, 4);
    refuses_arguments(t, &k, a);
    refuses_sizes(t, &k);
    expect_content(t, "nothing was launched of guard", a, numbers, sizeof numbers);
    expect_launch(t, "guard is launched", launch(t, &k, two_groups, 0));
    expect_content(t, "guard adds one", a, more, sizeof more);
    kv_cl_close(&k);
    clReleaseMemObject(a);
}

static cl_int launch_brighten(trial *t, kv_cl *k, size_t width, size_t height) {
    const size_t local[2] = {16, 4}, global[2] = {width, height};
    return kv_cl_enqueue(k, t->queue, 2, NULL, global, local, 0, 0, NULL, NULL);
}

static void brightens(trial *t) {
    cl_uchar pixels[20 * 7], brighter[20 * 7];
    const cl_int width = 20, height = 7;
    const cl_char amount = -30;
    cl_mem buffer;
    kv_cl k;
    for (int i = 0; i < 20 * 7; i++) {
        pixels[i] = (cl_uchar)(i * 11);
        brighter[i] = (cl_uchar)(pixels[i] < 30 ? 0 : pixels[i] - 30);
    }
    buffer = buffer_of(t, pixels, sizeof pixels);
    OPEN(&k, t, brighten);
    set_buffer(&k, 0, buffer);
    stop_if(kv_cl_value(&k, 1, &amount, sizeof amount), "char");
    stop_if(kv_cl_value(&k, 2, &width, sizeof width), "int");
    stop_if(kv_cl_value(&k, 3, &height, sizeof height), "int");
    expect_refusal(t, "6 rows in groups of 4 are 42", &k, launch_brighten(t, &k, 32, 6), KV_SIZES, 1);
    expect_launch(t, "brighten is launched, of bytes", launch_brighten(t, &k, 32, 8));
    expect_content(t, "brighten makes pixels darker by -30", buffer, brighter, sizeof brighter);
    set_word(&k, 3, 8);
    expect_refusal(t, "a picture past the buffer's end is 40", &k, launch_brighten(t, &k, 32, 8), KV_UNMET, 7);
    kv_cl_close(&k);
    clReleaseMemObject(buffer);
}

static void scales(trial *t) {
    const size_t of_32[1] = {32};
    cl_float4 points[32], scaled[32], factors = {{2.0f, -1.0f, 0.5f, 0.0f}};
    const cl_float one = 1.0f;
    cl_mem buffer;
    kv_cl k;
    for (int i = 0; i < 32; i++)
        for (int c = 0; c < 4; c++) scaled[i].s[c] = (points[i].s[c] = (cl_float)(i + c)) * factors.s[c];
    buffer = buffer_of(t, points, sizeof points);
    OPEN(&k, t, scale);
    set_buffer(&k, 0, buffer);
    stop_if(kv_cl_value(&k, 1, &one, sizeof one), "float");
    set_word(&k, 2, 32);
    expect_refusal(t, "a float for a float4 is 41", &k, kv_cl_enqueue(&k, t->queue, 1, NULL, of_32, of_32, 0, 0, NULL, NULL),
                   KV_ARGUMENTS, 1);
    stop_if(kv_cl_value(&k, 1, &factors, sizeof factors), "float4");
    expect_launch(t, "scale is launched, of float4", kv_cl_enqueue(&k, t->queue, 1, NULL, of_32, of_32, 0, 0, NULL, NULL));
    expect_content(t, "scale scales", buffer, scaled, sizeof scaled);
    set_word(&k, 2, 33);
    expect_refusal(t, "33 vectors in a buffer of 32 are 40", &k, kv_cl_enqueue(&k, t->queue, 1, NULL, of_32, of_32, 0, 0, NULL, NULL),
                   KV_UNMET, 9);
    kv_cl_close(&k);
    clReleaseMemObject(buffer);
}

static void sums(trial *t) {
    cl_ushort in[128];
    cl_uint out[2] = {0, 0}, wanted[2] = {0, 0};
    cl_mem numbers, sums_of_groups;
    kv_cl k;
    for (int i = 0; i < 128; i++) wanted[i / 64] += in[i] = (cl_ushort)(i * 517);
    numbers = buffer_of(t, in, sizeof in);
    sums_of_groups = buffer_of(t, out, sizeof out);
    OPEN(&k, t, group_sums);
    set_buffer(&k, 0, numbers);
    set_buffer(&k, 1, sums_of_groups);
    stop_if(kv_cl_local(&k, 2, 63 * sizeof(cl_uint)), "local");
    expect_refusal(t, "local memory of 63 elements is 41", &k, launch(t, &k, two_groups, 0), KV_ARGUMENTS, 2);
    expect_content(t, "nothing was launched of group_sums", sums_of_groups, out, sizeof out);
    stop_if(kv_cl_local(&k, 2, 64 * sizeof(cl_uint)), "local");
    expect_launch(t, "group_sums is launched, with local memory", launch(t, &k, two_groups, 0));
    expect_content(t, "group_sums sums", sums_of_groups, wanted, sizeof wanted);
    kv_cl_close(&k);
    clReleaseMemObject(numbers);
    clReleaseMemObject(sums_of_groups);
}

static void refuses_shared(trial *t, kv_cl *k, cl_mem whole) {
    cl_mem front = part_of(whole, 0, 4096), across = part_of(whole, 2048, 4096), behind = part_of(whole, 4096, 4096);
    set_buffer(k, 0, whole);
    set_buffer(k, 1, whole);
    expect_refusal(t, "one buffer for two is 44", k, launch(t, k, two_groups, 0), KV_SHARED, 1);
    set_buffer(k, 1, behind);
    expect_refusal(t, "a buffer and a part of it are 44", k, launch(t, k, two_groups, 0), KV_SHARED, 1);
    set_buffer(k, 0, front);
    set_buffer(k, 1, across);
    expect_refusal(t, "two parts that overlap are 44", k, launch(t, k, two_groups, 0), KV_SHARED, 1);
    set_buffer(k, 1, behind);
    expect_launch(t, "halve is launched, of two parts of a buffer", launch(t, k, two_groups, 0));
    clReleaseMemObject(front);
    clReleaseMemObject(across);
    clReleaseMemObject(behind);
}

static cl_mem buffer_on(const trial *t, void *memory, size_t bytes) {
    cl_int error;
    cl_mem made = clCreateBuffer(t->context, CL_MEM_READ_WRITE | CL_MEM_USE_HOST_PTR, bytes, memory, &error);
    stop_if(error, "buffer on memory of the host");
    return made;
}

static void refuses_memory_of_host(trial *t, kv_cl *k) {
    static cl_uint memory[2048];
    cl_mem front = buffer_on(t, memory, 4096), across = buffer_on(t, memory + 512, 4096), behind = buffer_on(t, memory + 1024, 4096);
    set_buffer(k, 0, front);
    set_buffer(k, 1, across);
    expect_refusal(t, "two buffers on one memory of the host are 44", k, launch(t, k, two_groups, 0), KV_SHARED, 1);
    set_buffer(k, 1, behind);
    expect_launch(t, "halve is launched, of two buffers on memory of the host", launch(t, k, two_groups, 0));
    stop_if(clFinish(t->queue), "finish");
    clReleaseMemObject(front);
    clReleaseMemObject(across);
    clReleaseMemObject(behind);
}

static void halves(trial *t) {
    cl_uint numbers[2048], wanted[2048];
    cl_mem whole;
    kv_cl k;
    for (cl_uint i = 0; i < 2048; i++) wanted[i] = numbers[i] = 3 * i;
    for (cl_uint i = 0; i < 100; i++) wanted[i] = numbers[1024 + i] / 2;
    whole = buffer_of(t, numbers, sizeof numbers);
    OPEN(&k, t, halve);
    set_word(&k, 2, 100);
    refuses_shared(t, &k, whole);
    expect_content(t, "halve halves, from one part to the other", whole, wanted, sizeof wanted);
    refuses_memory_of_host(t, &k);
    kv_cl_close(&k);
    clReleaseMemObject(whole);
}

static void multiplies(trial *t) {
    const cl_uint begins[4] = {0, 2, 2, 5}, columns[5] = {0, 3, 1, 2, 3}, vector[4] = {10, 20, 30, 40}, sizes[3] = {3, 4, 5};
    const cl_int weights[5] = {1, -2, 3, 4, 5}, zeros[3] = {0, 0, 0}, wanted[3] = {-70, 0, 380};
    cl_mem buffers[5];
    kv_cl k;
    buffers[0] = buffer_of(t, zeros, sizeof zeros);
    buffers[1] = buffer_of(t, begins, sizeof begins);
    buffers[2] = buffer_of(t, columns, sizeof columns);
    buffers[3] = buffer_of(t, weights, sizeof weights);
    buffers[4] = buffer_of(t, vector, sizeof vector);
    OPEN(&k, t, csr_row);
    for (cl_uint i = 0; i < 5; i++) set_buffer(&k, i, buffers[i]);
    for (cl_uint i = 0; i < 3; i++) set_word(&k, 5 + i, sizes[i]);
    expect_refusal(t, "contents that nobody answers for are 45", &k, launch(t, &k, one_group, 0), KV_UNSAID, 11);
    expect_content(t, "nothing was launched of csr_row", buffers[0], zeros, sizeof zeros);
    expect_launch(t, "csr_row is launched, where the host answers for them", launch(t, &k, one_group, KV_HELD));
    expect_content(t, "csr_row multiplies", buffers[0], wanted, sizeof wanted);
    kv_cl_close(&k);
    for (int i = 0; i < 5; i++) clReleaseMemObject(buffers[i]);
}

static cl_int smoothed(const cl_int *in, int at) {
    cl_int sum = 0;
    for (int k = -3; k <= 3; k++) sum += in[at + k] & 0xff;
    return sum / 7;
}

static void smooths(trial *t) {
    cl_int in[64], out[64], wanted[64];
    cl_mem from, to;
    kv_cl k;
    for (int i = 0; i < 64; i++) {
        in[i] = i * 1000 - 5;
        wanted[i] = out[i] = -i;
    }
    for (int i = 3; i + 3 < 50; i++) wanted[i] = smoothed(in, i);
    from = buffer_of(t, in, sizeof in);
    to = buffer_of(t, out, sizeof out);
    OPEN(&k, t, smooth_rows);
    set_buffer(&k, 0, from);
    set_buffer(&k, 1, to);
    set_word(&k, 2, 50);
    expect_launch(t, "the first kernel of a file is launched", launch(t, &k, one_group, 0));
    expect_content(t, "it reaches as far as its conditions define", to, wanted, sizeof wanted);
    kv_cl_close(&k);
    OPEN(&k, t, smooth_negate);
    set_buffer(&k, 0, to);
    set_word(&k, 1, 50);
    for (int i = 0; i < 50; i++) wanted[i] = ~wanted[i];
    expect_launch(t, "the second kernel of a file is launched", launch(t, &k, one_group, 0));
    expect_content(t, "it is the second one", to, wanted, sizeof wanted);
    kv_cl_close(&k);
    clReleaseMemObject(from);
    clReleaseMemObject(to);
}

/* Tokens with blanks are no word of the options that each driver reads alike. */
static void keeps_blanks(trial *t) {
    cl_int in[64], out[64] = {0}, wanted[64] = {0}, answer;
    cl_mem from, to;
    kv_cl k;
    for (int i = 0; i < 64; i++) in[i] = i * i;
    for (int i = 3; i + 3 < 64; i++) wanted[i] = smoothed(in, i);
    from = buffer_of(t, in, sizeof in);
    to = buffer_of(t, out, sizeof out);
    answer = kv_cl_open(&k, t->context, t->device, KV_KERNEL(smooth_blanks), 0);
    if (answer == 0) {
        set_buffer(&k, 0, from);
        set_buffer(&k, 1, to);
        set_word(&k, 2, 64);
        expect_launch(t, "a kernel is launched whose conditions define tokens with blanks", launch(t, &k, one_group, 0));
        expect_content(t, "they are built as they are meant", to, wanted, sizeof wanted);
    } else {
        expect(t, answer == CL_INVALID_BUILD_OPTIONS && !k.kernel, "options with blanks in a word are no build");
    }
    kv_cl_close(&k);
    clReleaseMemObject(from);
    clReleaseMemObject(to);
}

static void opens_nothing_else(trial *t) {
    static const char words[] = "refused 52";
    char room[400];
    kv_cl k;
    cl_int answer = kv_cl_open(&k, t->context, t->device, KV_TEXT(guard), KV_CONDITIONS(guard), KV_CERTIFICATE(fill), 0);
    uint64_t n = kv_explain(KV_TEXT(guard), KV_CONDITIONS(guard), KV_CERTIFICATE(fill), 0, room, sizeof room);
    expect(t, answer == 52 && k.answer.number == 52 && !k.kernel, "a certificate of another kernel is 52");
    expect(t, n > sizeof words && memcmp(room, words, sizeof words - 1) == 0, "it is explained");
    kv_cl_close(&k);
    if (sizeof(void *) == 4) return;
    answer = kv_cl_open(&k, t->context, t->device, KV_KERNEL(guard), KV_BITS32);
    expect(t, answer == CL_INVALID_DEVICE && !k.kernel, "a kernel for 32 bits is for no device with 64");
    expect(t, launch(t, &k, one_group, 0) == CL_INVALID_KERNEL, "what was not opened is not launched");
    kv_cl_close(&k);
}

/* What no launch on a device can show: numbers of which there is no buffer, and runs on the calling thread. */
static void answers_of_numbers(trial *t) {
    kv_range range = {1, 0, {0, 0, 0}, {128, 1, 1}, {64, 1, 1}};
    kv_argument given[3];
    kv_answer answer;
    kv_kernel *handle;
    memset(given, 0, sizeof given);
    given[0].kind = KV_BUFFER;
    given[0].bytes = 400;
    given[0].memory = 1;
    given[1].bytes = 4;
    given[1].words[0] = 100;
    expect_number(t, "guard is accepted for devices with 32 bits, too", kv_check(KV_KERNEL(guard), KV_BITS32, &answer), 0);
    stop_if((cl_int)kv_open(KV_KERNEL(guard), 0, &handle, &answer), "guard");
    expect_number(t, "two right arguments", kv_allows(handle, 0, &range, given, 2, &answer), 0);
    expect(t, kv_allows(handle, 0, &range, given, 3, &answer) == KV_ARGUMENTS && answer.place == 2, "a third argument is 41");
    expect(t, kv_allows(handle, 0, &range, given, 1, &answer) == KV_ARGUMENTS && answer.place == 1, "one argument is 41");
    given[0].memory = 0;
    expect(t, kv_allows(handle, 0, &range, given, 2, &answer) == KV_ARGUMENTS && answer.place == 0, "a buffer of memory 0 is 41");
    given[0].memory = 1;
    given[0].bytes = 4 * 4294967296u;
    expect(t, kv_allows(handle, 0, &range, given, 2, &answer) == KV_LONG && answer.place == 0, "4294967296 elements are 47");
    given[0].bytes -= 4;
    expect_number(t, "4294967295 elements are not", kv_allows(handle, 0, &range, given, 2, &answer), 0);
    range.dimensions = 4;
    expect_number(t, "a fourth dimension is 42", kv_allows(handle, 0, &range, given, 2, &answer), KV_SIZES);
    kv_close(handle);
}

int main(void) {
    trial t = trial_of_first_device();
    expect_number(&t, "the library's version", kv_version(), KV_VERSION);
    fills(&t);
    guards(&t);
    brightens(&t);
    scales(&t);
    sums(&t);
    halves(&t);
    multiplies(&t);
    smooths(&t);
    keeps_blanks(&t);
    opens_nothing_else(&t);
    answers_of_numbers(&t);
    return trial_ends(&t);
}
