/* A program of OpenCL, as one without the layer: each case makes a launch, and tells what came of it.
 *
 * usage: launches CASE.. | launches many N [INDEXES] | launches threads N */
#define CL_TARGET_OPENCL_VERSION 300
#define CL_USE_DEPRECATED_OPENCL_1_2_APIS
#include <CL/cl.h>
#include <errno.h>
#include <pthread.h>
#include <signal.h>
#include <stdio.h>
#include <stdlib.h>
#include <string.h>
#include <sys/wait.h>
#include <time.h>

#define N 1000
#define SIZE 64

static const char text[] =
    "typedef float real;\n"
    "__kernel void axpy(__global real *y, const __global real *x, real a, int n) {\n"
    "  int i = get_global_id(0);\n"
    "  if (i < n) y[i] = a * x[i] + y[i];\n"
    "}\n"
    "__kernel void race(__global int *a) { a[get_global_id(0) / 2] = 1; }\n"
    "__kernel void fill(__global int *a) { a[get_global_id(0)] = 7; }\n"
    "__kernel void add(__global int *to, __global const int *from) { to[get_global_id(0)] = from[get_global_id(0)] & 15; }\n"
    "#ifdef STEP\n"
    "__kernel void step_by(__global uchar *a) { a[STEP * get_global_id(0)] = 1; }\n"
    "#endif\n"
    "__kernel void turn(__global float4 *a, float4 v, __local float *t, uchar2 c) {\n"
    "  t[get_local_id(0)] = v.x;\n"
    "  barrier(CLK_LOCAL_MEM_FENCE);\n"
    "  a[get_global_id(0)] = v * t[63 - get_local_id(0)] + (float)c.y;\n"
    "}\n"
    "__kernel void one(__global int *a) { a[0] = 1; }\n"
    "__kernel __attribute__((reqd_work_group_size(64, 1, 1))) void sized(__global int *a) { a[get_global_id(0)] = 3; }\n"
    "__kernel void sum(__global int *a, __global const int *idx, int n) {\n"
    "  if (get_global_id(0) < n) a[get_global_id(0)] = idx[idx[get_global_id(0)]];\n"
    "}\n"
    "__kernel void gather(__global int *y, __global const int *x, __global const int *idx, int n) {\n"
    "  if (get_global_id(0) < n) y[get_global_id(0)] = x[idx[get_global_id(0)]];\n"
    "}\n"
    "__kernel void look_up(__global int *y, __global const int *x, __global const short *idx) {\n"
    "  y[get_global_id(0)] = x[idx[get_global_id(0)] + 5];\n"
    "}\n";

static cl_context context;
static cl_command_queue queue;
static cl_device_id device;

static void need(cl_int error, const char *what) {
    if (!error) return;
    printf("%s: error %d\n", what, error);
    exit(2);
}

static cl_program built(const char *options) {
    const char *bytes = text;
    cl_int error;
    cl_program program = clCreateProgramWithSource(context, 1, &bytes, NULL, &error);
    need(error, "clCreateProgramWithSource");
    need(clBuildProgram(program, 1, &device, options, NULL, NULL), "clBuildProgram");
    return program;
}

static cl_kernel kernel_of(cl_program program, const char *name) {
    cl_int error;
    cl_kernel kernel = clCreateKernel(program, name, &error);
    need(error, name);
    need(clReleaseProgram(program), "clReleaseProgram");
    return kernel;
}

static cl_kernel made(const char *options, const char *name) {
    return kernel_of(built(options), name);
}

static cl_mem memory(cl_mem_flags flags, size_t n) {
    cl_int error;
    cl_mem made = clCreateBuffer(context, flags, n, NULL, &error);
    need(error, "clCreateBuffer");
    return made;
}

static cl_mem part(cl_mem whole, size_t begin, size_t n) {
    cl_buffer_region region = {begin, n};
    cl_int error;
    cl_mem made = clCreateSubBuffer(whole, CL_MEM_READ_WRITE, CL_BUFFER_CREATE_TYPE_REGION, &region, &error);
    need(error, "clCreateSubBuffer");
    return made;
}

static void set(cl_kernel kernel, cl_uint at, size_t n, const void *value) {
    need(clSetKernelArg(kernel, at, n, value), "clSetKernelArg");
}

static cl_int launch(cl_kernel kernel, size_t global, size_t local) {
    return clEnqueueNDRangeKernel(queue, kernel, 1, NULL, &global, local ? &local : NULL, 0, NULL, NULL);
}

/* A kernel of one buffer, of so many bytes, at so many items. */
static cl_int of_one(const char *options, const char *name, size_t bytes, size_t global, size_t local) {
    cl_kernel kernel = made(options, name);
    cl_mem a = memory(CL_MEM_READ_WRITE, bytes);
    cl_int error;
    set(kernel, 0, sizeof a, &a);
    error = launch(kernel, global, local);
    need(clFinish(queue), "clFinish");
    need(clReleaseKernel(kernel), "clReleaseKernel");
    need(clReleaseMemObject(a), "clReleaseMemObject");
    return error;
}

static cl_int of_two(cl_mem to, cl_mem from) {
    cl_kernel kernel = made("", "add");
    set(kernel, 0, sizeof to, &to);
    set(kernel, 1, sizeof from, &from);
    return launch(kernel, 1024, SIZE);
}

/* Of n elements, in buffers that have room for more. */
static cl_int axpy(cl_int n, size_t room) {
    float x[N], y[N], a = 2;
    cl_int error, at;
    cl_kernel kernel = made("-D UNUSED=1 -I .", "axpy");
    cl_mem bx = memory(CL_MEM_READ_ONLY, room * sizeof *x), by = memory(CL_MEM_READ_WRITE, room * sizeof *y);
    for (at = 0; at < n; at++) x[at] = (float)at, y[at] = 1;
    need(clEnqueueWriteBuffer(queue, bx, CL_TRUE, 0, n * sizeof *x, x, 0, NULL, NULL), "clEnqueueWriteBuffer");
    need(clEnqueueWriteBuffer(queue, by, CL_TRUE, 0, n * sizeof *y, y, 0, NULL, NULL), "clEnqueueWriteBuffer");
    set(kernel, 0, sizeof by, &by);
    set(kernel, 1, sizeof bx, &bx);
    set(kernel, 2, sizeof a, &a);
    set(kernel, 3, sizeof n, &n);
    error = launch(kernel, (n + 63) / 64 * 64, SIZE);
    need(clEnqueueReadBuffer(queue, by, CL_TRUE, 0, n * sizeof *y, y, 0, NULL, NULL), "clEnqueueReadBuffer");
    for (at = 0; !error && at < n; at++)
        if (y[at] != 2 * (float)at + 1) return -1000;
    return error;
}

static cl_int turn(void) {
    cl_kernel kernel = made("", "turn");
    cl_mem a = memory(CL_MEM_READ_WRITE, 1024 * 16);
    cl_float4 v = {{1, 2, 3, 4}};
    cl_uchar2 c = {{5, 250}};
    set(kernel, 0, sizeof a, &a);
    set(kernel, 1, sizeof v, &v);
    set(kernel, 2, SIZE * sizeof(float), NULL);
    set(kernel, 3, sizeof c, &c);
    return launch(kernel, 1024, SIZE);
}

static cl_int offset(void) {
    cl_kernel kernel = made("", "fill");
    cl_mem a = memory(CL_MEM_READ_WRITE, 8192);
    size_t begin = 64, global = 1024, local = SIZE;
    set(kernel, 0, sizeof a, &a);
    return clEnqueueNDRangeKernel(queue, kernel, 1, &begin, &global, &local, 0, NULL, NULL);
}

static cl_int binary(void) {
    cl_program program = built(""), other;
    size_t n = 0;
    unsigned char *bytes;
    cl_int state, error;
    cl_mem a = memory(CL_MEM_READ_WRITE, 4096);
    cl_kernel kernel;
    need(clGetProgramInfo(program, CL_PROGRAM_BINARY_SIZES, sizeof n, &n, NULL), "clGetProgramInfo");
    bytes = malloc(n);
    need(clGetProgramInfo(program, CL_PROGRAM_BINARIES, sizeof bytes, &bytes, NULL), "clGetProgramInfo");
    other = clCreateProgramWithBinary(context, 1, &device, &n, (const unsigned char **)&bytes, &state, &error);
    need(error, "clCreateProgramWithBinary");
    need(clBuildProgram(other, 0, NULL, "", NULL, NULL), "clBuildProgram");
    kernel = kernel_of(other, "fill");
    set(kernel, 0, sizeof a, &a);
    free(bytes);
    return launch(kernel, 1024, SIZE);
}

static cl_int linked(void) {
    const char *bytes = text;
    cl_int error;
    cl_mem a = memory(CL_MEM_READ_WRITE, 4096);
    cl_program program = clCreateProgramWithSource(context, 1, &bytes, NULL, &error), whole;
    cl_kernel kernel;
    need(clCompileProgram(program, 0, NULL, "", 0, NULL, NULL, NULL, NULL), "clCompileProgram");
    whole = clLinkProgram(context, 0, NULL, "", 1, &program, NULL, NULL, &error);
    need(error, "clLinkProgram");
    kernel = kernel_of(whole, "fill");
    set(kernel, 0, sizeof a, &a);
    return launch(kernel, 1024, SIZE);
}

static cl_int task(void) {
    cl_kernel kernel = made("", "one");
    cl_mem a = memory(CL_MEM_READ_WRITE, 4);
    set(kernel, 0, sizeof a, &a);
    return clEnqueueTask(queue, kernel, 0, NULL, NULL);
}

static cl_int let_go(void) {
    cl_kernel kernel = made("", "fill");
    cl_mem a = memory(CL_MEM_READ_WRITE, 4096);
    set(kernel, 0, sizeof a, &a);
    need(clReleaseMemObject(a), "clReleaseMemObject");
    return launch(kernel, 1024, SIZE);
}

static cl_int cloned(void) {
    cl_kernel kernel = made("", "fill"), other;
    cl_mem a = memory(CL_MEM_READ_WRITE, 4096);
    cl_int error;
    set(kernel, 0, sizeof a, &a);
    other = clCloneKernel(kernel, &error);
    need(error, "clCloneKernel");
    need(clReleaseKernel(kernel), "clReleaseKernel");
    return launch(other, 1024, SIZE);
}

static cl_int of_svm(void) {
    cl_kernel kernel = made("", "fill");
    int *a = clSVMAlloc(context, CL_MEM_READ_WRITE, 4096, 0);
    need(!a, "clSVMAlloc");
    need(clSetKernelArgSVMPointer(kernel, 0, a), "clSetKernelArgSVMPointer");
    return launch(kernel, 1024, SIZE);
}

static cl_int in_program(void) {
    cl_program program = built("-DSTEP=1");
    cl_kernel kernels[16];
    cl_mem a = memory(CL_MEM_READ_WRITE, 4096);
    cl_uint n, at;
    cl_int error = -1000;
    need(clCreateKernelsInProgram(program, 16, kernels, &n), "clCreateKernelsInProgram");
    for (at = 0; at < n; at++) {
        char name[64];
        need(clGetKernelInfo(kernels[at], CL_KERNEL_FUNCTION_NAME, sizeof name, name, NULL), "clGetKernelInfo");
        if (strcmp(name, "fill")) continue;
        set(kernels[at], 0, sizeof a, &a);
        error = launch(kernels[at], 1024, SIZE);
    }
    return error;
}

/* A kernel whose build is followed by one with another option, which fails: the kernel is of the first. */
static cl_int built_again(void) {
    cl_program program = built("-DSTEP=1");
    cl_int error;
    cl_mem a = memory(CL_MEM_READ_WRITE, 1024);
    cl_kernel kernel = clCreateKernel(program, "step_by", &error), other;
    need(error, "clCreateKernel");
    if (!clBuildProgram(program, 1, &device, "-DSTEP=0", NULL, NULL)) return -1000;
    other = clCreateKernel(program, "step_by", &error);
    if (error) return -1001;
    set(other, 0, sizeof a, &a);
    need(clReleaseKernel(kernel), "clReleaseKernel");
    return launch(other, 1024, SIZE);
}

static cl_int on_host_memory(void) {
    static int host[2048];
    cl_int error;
    cl_mem a = clCreateBuffer(context, CL_MEM_USE_HOST_PTR, 4096, host, &error), b;
    need(error, "clCreateBuffer");
    b = clCreateBuffer(context, CL_MEM_USE_HOST_PTR, 4096, host + 512, &error);
    need(error, "clCreateBuffer");
    return of_two(a, b);
}

static cl_int of_parts(size_t second) {
    cl_mem whole = memory(CL_MEM_READ_WRITE, 16384);
    return of_two(part(whole, 0, 4096), part(whole, second, 4096));
}

static cl_int of_contents(void) {
    cl_kernel kernel = made("", "sum");
    cl_mem a = memory(CL_MEM_READ_WRITE, 4096), idx = memory(CL_MEM_READ_ONLY, 4096);
    cl_int n = 1000, zero = 0;
    need(clEnqueueFillBuffer(queue, idx, &zero, sizeof zero, 0, 4096, 0, NULL, NULL), "clEnqueueFillBuffer");
    set(kernel, 0, sizeof a, &a);
    set(kernel, 1, sizeof idx, &idx);
    set(kernel, 2, sizeof n, &n);
    return launch(kernel, 1024, SIZE);
}

/* ---- kernels that load an index ---- */

struct gather {
    cl_kernel kernel;
    cl_mem y, x, idx;
    cl_int n;
};

/* A kernel of N items, all indexes of which are in range, and the buffers of which have no more than they need. */
static struct gather gather_of(cl_mem_flags flags, cl_int n) {
    struct gather it = {made("", "gather"), memory(CL_MEM_READ_WRITE, 4 * n), memory(CL_MEM_READ_ONLY, 4 * n), memory(flags, 4 * n), n};
    cl_int *words = malloc(4 * (size_t)n), at;
    for (at = 0; at < n; at++) words[at] = at * 3;
    need(clEnqueueWriteBuffer(queue, it.x, CL_TRUE, 0, 4 * n, words, 0, NULL, NULL), "clEnqueueWriteBuffer");
    for (at = 0; at < n; at++) words[at] = n - 1 - at;
    if (!(flags & CL_MEM_HOST_NO_ACCESS))
        need(clEnqueueWriteBuffer(queue, it.idx, CL_TRUE, 0, 4 * n, words, 0, NULL, NULL), "clEnqueueWriteBuffer");
    free(words);
    set(it.kernel, 0, sizeof it.y, &it.y);
    set(it.kernel, 1, sizeof it.x, &it.x);
    set(it.kernel, 2, sizeof it.idx, &it.idx);
    set(it.kernel, 3, sizeof it.n, &it.n);
    return it;
}

static void put(const struct gather *it, size_t at, cl_int word) {
    need(clEnqueueWriteBuffer(queue, it->idx, CL_TRUE, 4 * at, sizeof word, &word, 0, NULL, NULL), "clEnqueueWriteBuffer");
}

static cl_int gather(cl_int n) {
    struct gather it = gather_of(CL_MEM_READ_ONLY, n);
    cl_int error = launch(it.kernel, (n + 63) / 64 * 64, SIZE), word = 0;
    need(clEnqueueReadBuffer(queue, it.y, CL_TRUE, 4, sizeof word, &word, 0, NULL, NULL), "clEnqueueReadBuffer");
    return error || word == 3 * (n - 2) ? error : -1000;
}

/* One index is wrong: at once, or at the second launch. */
static cl_int gather_wrong(size_t at, cl_int word, int first) {
    struct gather it = gather_of(CL_MEM_READ_ONLY, N);
    cl_int error = first ? launch(it.kernel, 1024, SIZE) : 0;
    put(&it, at, word);
    return error ? -1000 : launch(it.kernel, 1024, SIZE);
}

/* The index comes by a command that the launch waits for, in a queue without an order. */
static cl_int gather_waiting(cl_int word) {
    struct gather it = gather_of(CL_MEM_READ_ONLY, N);
    cl_event written, user;
    cl_int error, ended;
    cl_command_queue loose = clCreateCommandQueue(context, device, CL_QUEUE_OUT_OF_ORDER_EXEC_MODE_ENABLE, &error);
    size_t global = 1024, local = SIZE;
    if (error) loose = queue;
    user = clCreateUserEvent(context, &error);
    need(error, "clCreateUserEvent");
    put(&it, 1, 1 << 20);
    need(clSetUserEventStatus(user, CL_COMPLETE), "clSetUserEventStatus");
    need(clEnqueueWriteBuffer(loose, it.idx, CL_FALSE, 4, sizeof word, &word, 1, &user, &written), "clEnqueueWriteBuffer");
    error = clEnqueueNDRangeKernel(loose, it.kernel, 1, NULL, &global, &local, 1, &written, NULL);
    ended = clFinish(loose);
    return error ? error : ended;
}

/* The launch waits for what the program does behind it. */
static cl_int gather_late(void) {
    struct gather it = gather_of(CL_MEM_READ_ONLY, N);
    cl_int error;
    cl_event user = clCreateUserEvent(context, &error);
    size_t global = 1024, local = SIZE;
    need(error, "clCreateUserEvent");
    error = clEnqueueNDRangeKernel(queue, it.kernel, 1, NULL, &global, &local, 1, &user, NULL);
    need(clSetUserEventStatus(user, CL_COMPLETE), "clSetUserEventStatus");
    need(clFinish(queue), "clFinish");
    return error;
}

/* Nobody may read this one. */
static cl_int gather_hidden(void) {
    struct gather it = gather_of(CL_MEM_READ_WRITE | CL_MEM_HOST_NO_ACCESS, N);
    cl_int zero = 0;
    need(clEnqueueFillBuffer(queue, it.idx, &zero, sizeof zero, 0, 4 * N, 0, NULL, NULL), "clEnqueueFillBuffer");
    return launch(it.kernel, 1024, SIZE);
}

/* Over 64 MiB of indexes. */
static cl_int gather_large(void) {
    struct gather it = gather_of(CL_MEM_READ_ONLY, N);
    cl_mem large = memory(CL_MEM_READ_ONLY, (64u << 20) + 4);
    cl_int zero = 0;
    need(clEnqueueFillBuffer(queue, large, &zero, sizeof zero, 0, (64u << 20) + 4, 0, NULL, NULL), "clEnqueueFillBuffer");
    set(it.kernel, 2, sizeof large, &large);
    return launch(it.kernel, 1024, SIZE);
}

/* Indexes of 16 bits in a part of a buffer, the rest of which is wrong. */
static cl_int look_up(cl_short other) {
    cl_kernel kernel = made("", "look_up");
    cl_mem y = memory(CL_MEM_READ_WRITE, 4096), x = memory(CL_MEM_READ_ONLY, 64), whole = memory(CL_MEM_READ_WRITE, 16384), idx;
    cl_short word = 10, wrong = 999;
    need(clEnqueueFillBuffer(queue, whole, &wrong, sizeof wrong, 0, 16384, 0, NULL, NULL), "clEnqueueFillBuffer");
    need(clEnqueueFillBuffer(queue, whole, &word, sizeof word, 8192, 2048, 0, NULL, NULL), "clEnqueueFillBuffer");
    need(clEnqueueWriteBuffer(queue, whole, CL_TRUE, 8200, sizeof other, &other, 0, NULL, NULL), "clEnqueueWriteBuffer");
    idx = part(whole, 8192, 2048);
    set(kernel, 0, sizeof y, &y);
    set(kernel, 1, sizeof x, &x);
    set(kernel, 2, sizeof idx, &idx);
    return launch(kernel, 1024, SIZE);
}

static cl_int twice(void) {
    cl_mem a = memory(CL_MEM_READ_WRITE, 4096);
    return of_two(a, a);
}

static cl_int read_only(void) {
    return of_two(memory(CL_MEM_READ_ONLY, 4096), memory(CL_MEM_READ_WRITE, 4096));
}

static volatile sig_atomic_t children;

static void count_child(int number) {
    (void)number;
    children++;
}

/* The process that looks for a certificate is none that the program sees. (pocl has some of its own, where it launches.) */
static cl_int seen_children(void) {
    cl_kernel kernel = made("-DSTEP=4", "race");
    cl_mem a = memory(CL_MEM_READ_WRITE, 4096);
    cl_int error;
    set(kernel, 0, sizeof a, &a);
    signal(SIGCHLD, count_child);
    error = launch(kernel, 1024, SIZE);
    if (error && (children || waitpid(-1, NULL, WNOHANG) != -1 || errno != ECHILD)) return -1000;
    return error;
}

static cl_int case_of(const char *name) {
    if (!strcmp(name, "axpy")) return axpy(N, N);
    if (!strcmp(name, "axpy_64")) return axpy(64, 64);
    if (!strcmp(name, "axpy_in_more")) return axpy(70, 4096);
    if (!strcmp(name, "gather")) return gather(N);
    if (!strcmp(name, "gather_more")) return gather(4 * N);
    if (!strcmp(name, "gather_past")) return gather_wrong(500, N, 0);
    if (!strcmp(name, "gather_negative")) return gather_wrong(N - 1, -1, 0);
    if (!strcmp(name, "gather_changed")) return gather_wrong(0, 1 << 30, 1);
    if (!strcmp(name, "gather_waiting")) return gather_waiting(5);
    if (!strcmp(name, "gather_waiting_past")) return gather_waiting(N);
    if (!strcmp(name, "gather_late")) return gather_late();
    if (!strcmp(name, "gather_hidden")) return gather_hidden();
    if (!strcmp(name, "gather_large")) return gather_large();
    if (!strcmp(name, "look_up")) return look_up(0);
    if (!strcmp(name, "look_up_past")) return look_up(11);
    if (!strcmp(name, "look_up_negative")) return look_up(-6);
    if (!strcmp(name, "fill_twice")) return of_one("", "fill", 8192, 2048, SIZE);
    if (!strcmp(name, "fill_by_32")) return of_one("", "fill", 4096, 1024, 32);
    if (!strcmp(name, "turn")) return turn();
    if (!strcmp(name, "race")) return of_one("", "race", 4096, 1024, SIZE);
    if (!strcmp(name, "fill")) return of_one("", "fill", 4096, 1024, SIZE);
    if (!strcmp(name, "past")) return of_one("", "fill", 4096, 2048, SIZE);
    if (!strcmp(name, "sized")) return of_one("", "sized", 4096, 1024, SIZE);
    if (!strcmp(name, "no_size")) return of_one("", "fill", 4096, 1024, 0);
    if (!strcmp(name, "defined")) return of_one("-DSTEP=2", "step_by", 2048, 1024, SIZE);
    if (!strcmp(name, "defined_past")) return of_one("-D STEP=3", "step_by", 2048, 1024, SIZE);
    if (!strcmp(name, "language")) return of_one("-cl-std=CL2.0", "fill", 4096, 1024, SIZE);
    if (!strcmp(name, "language_1")) return of_one("-cl-std=CL1.2", "fill", 4096, 1024, SIZE);
    if (!strcmp(name, "relaxed")) return of_one("-cl-fast-relaxed-math", "fill", 4096, 1024, SIZE);
    if (!strcmp(name, "function")) return of_one("-Dmul24=mad24", "fill", 4096, 1024, SIZE);
    if (!strcmp(name, "twice")) return twice();
    if (!strcmp(name, "read_only")) return read_only();
    if (!strcmp(name, "parts")) return of_parts(8192);
    if (!strcmp(name, "parts_overlap")) return of_parts(2048);
    if (!strcmp(name, "host_memory")) return on_host_memory();
    if (!strcmp(name, "offset")) return offset();
    if (!strcmp(name, "binary")) return binary();
    if (!strcmp(name, "linked")) return linked();
    if (!strcmp(name, "task")) return task();
    if (!strcmp(name, "let_go")) return let_go();
    if (!strcmp(name, "cloned")) return cloned();
    if (!strcmp(name, "svm")) return of_svm();
    if (!strcmp(name, "in_program")) return in_program();
    if (!strcmp(name, "built_again")) return built_again();
    if (!strcmp(name, "contents")) return of_contents();
    if (!strcmp(name, "children")) return seen_children();
    printf("no case is called %s\n", name);
    exit(2);
}

static double now(void) {
    struct timespec time;
    clock_gettime(CLOCK_MONOTONIC, &time);
    return (double)time.tv_sec + (double)time.tv_nsec * 1e-9;
}

/* Many launches of one kernel, in batches: what a call of clEnqueueNDRangeKernel takes, the quickest batch and the middle one. */
static int compare(const void *one, const void *other) {
    double a = *(const double *)one, b = *(const double *)other;
    return (a > b) - (a < b);
}

static void many(int n, cl_int indexes) {
    enum { BATCHES = 20 };
    cl_kernel kernel = indexes ? gather_of(CL_MEM_READ_ONLY, indexes).kernel : made("", "fill");
    cl_mem a = memory(CL_MEM_READ_WRITE, indexes ? 4 * (size_t)indexes : 4096);
    double times[BATCHES];
    int batch, at;
    set(kernel, 0, sizeof a, &a);
    need(launch(kernel, 64, SIZE), "launch");
    need(clFinish(queue), "clFinish");
    /* (the layer may look for its answer beside the program) */
    if (getenv("LAUNCHES_WAIT")) nanosleep(&(struct timespec){atoi(getenv("LAUNCHES_WAIT")), 0}, NULL);
    for (batch = 0; batch < BATCHES; batch++) {
        double taken = 0;
        for (at = 0; at < n; at++) {
            double began = now();
            cl_int error = launch(kernel, 64, SIZE);
            taken += now() - began;
            need(error, "launch");
            if (at % 50 == 49) need(clFinish(queue), "clFinish");
        }
        need(clFinish(queue), "clFinish");
        times[batch] = taken / n * 1e6;
    }
    qsort(times, BATCHES, sizeof *times, compare);
    printf("clEnqueueNDRangeKernel: %.2f us at least, %.2f us in the middle\n", times[0], times[BATCHES / 2]);
}

/* What each thread launches is its own; one of two asks for what is not allowed. */
static void *one_thread(void *given) {
    size_t number = (size_t)given, at;
    for (at = 0; at < 20; at++) {
        cl_int error = of_one("", at % 2 ? "fill" : "race", 4096, 64 * (1 + (number + at) % 16), SIZE);
        if (error && error != CL_INVALID_OPERATION) return given;
        if (error && at % 2) return given;
        if (getenv("LAUNCHES_REFUSED") && !error && !(at % 2)) return given;
        if (getenv("LAUNCHES_GATHER") && gather(64 * (cl_int)(1 + number % 4))) return given;
    }
    return NULL;
}

static void threads(int n) {
    pthread_t thread[64];
    int at, wrong = 0;
    for (at = 0; at < n; at++) need(pthread_create(&thread[at], NULL, one_thread, (void *)(size_t)(at + 1)), "pthread_create");
    for (at = 0; at < n; at++) {
        void *result;
        need(pthread_join(thread[at], &result), "pthread_join");
        wrong += result != NULL;
    }
    printf("threads: %d of %d had a wrong answer\n", wrong, n);
}

int main(int n, char **words) {
    cl_platform_id platform;
    cl_int error;
    int at;
    need(clGetPlatformIDs(1, &platform, NULL), "clGetPlatformIDs");
    need(clGetDeviceIDs(platform, CL_DEVICE_TYPE_ALL, 1, &device, NULL), "clGetDeviceIDs");
    context = clCreateContext(NULL, 1, &device, NULL, NULL, &error);
    need(error, "clCreateContext");
    queue = clCreateCommandQueue(context, device, 0, &error);
    need(error, "clCreateCommandQueue");
    if (n >= 3 && !strcmp(words[1], "many")) {
        many(atoi(words[2]), n > 3 ? atoi(words[3]) : 0);
    } else if (n == 3 && !strcmp(words[1], "threads")) {
        threads(atoi(words[2]));
    } else {
        for (at = 1; at < n; at++) {
            error = case_of(words[at]);
            printf("%s: %d\n", words[at], error);
        }
    }
    need(clFinish(queue), "clFinish");
    return 0;
}
