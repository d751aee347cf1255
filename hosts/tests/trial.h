/* What the tests in C and C++ have in common: a device, buffers, and counted answers. Each test prints a line, `ok` or `FAILED`. */
#ifndef TRIAL_H
#define TRIAL_H
#include <stdio.h>
#include <stdlib.h>
#include <string.h>
#include "kverify_cl.h"

typedef struct {
    cl_device_id device;
    cl_context context;
    cl_command_queue queue;
    unsigned passed, failed;
} trial;

static inline void expect(trial *t, int is_right, const char *what) {
    printf("%s: %s\n", is_right ? "ok" : "FAILED", what);
    if (is_right)
        t->passed++;
    else
        t->failed++;
}

static inline void expect_number(trial *t, const char *what, uint64_t got, uint64_t wanted) {
    if (got != wanted) printf("%llu, where %llu was due, ", (unsigned long long)got, (unsigned long long)wanted);
    expect(t, got == wanted, what);
}

static inline void stop_if(cl_int error, const char *what) {
    if (!error) return;
    printf("FAILED: %s: OpenCL error %d\n", what, (int)error);
    exit(2);
}

static inline trial trial_of_first_device(void) {
    trial t;
    cl_platform_id platform;
    cl_int error;
    memset(&t, 0, sizeof t);
    stop_if(clGetPlatformIDs(1, &platform, NULL), "platform");
    stop_if(clGetDeviceIDs(platform, CL_DEVICE_TYPE_ALL, 1, &t.device, NULL), "device");
    t.context = clCreateContext(NULL, 1, &t.device, NULL, NULL, &error);
    stop_if(error, "context");
    t.queue = clCreateCommandQueue(t.context, t.device, 0, &error);
    stop_if(error, "queue");
    return t;
}

static inline int trial_ends(trial *t) {
    clReleaseCommandQueue(t->queue);
    clReleaseContext(t->context);
    printf("%u passed, %u failed\n", t->passed, t->failed);
    return t->failed || !t->passed;
}

static inline cl_mem buffer_of(const trial *t, const void *content, size_t bytes) {
    cl_int error;
    cl_mem made = clCreateBuffer(t->context, CL_MEM_READ_WRITE | CL_MEM_COPY_HOST_PTR, bytes, (void *)(uintptr_t)content, &error);
    stop_if(error, "buffer");
    return made;
}

static inline cl_mem part_of(cl_mem whole, size_t begin, size_t bytes) {
    cl_buffer_region region = {begin, bytes};
    cl_int error;
    cl_mem made = clCreateSubBuffer(whole, CL_MEM_READ_WRITE, CL_BUFFER_CREATE_TYPE_REGION, &region, &error);
    stop_if(error, "sub-buffer");
    return made;
}

/* Whether a buffer holds these bytes, once all is done that was enqueued. */
static inline void expect_content(trial *t, const char *what, cl_mem buffer, const void *wanted, size_t bytes) {
    char *got = (char *)malloc(bytes);
    stop_if(got ? clEnqueueReadBuffer(t->queue, buffer, CL_TRUE, 0, bytes, got, 0, NULL, NULL) : CL_OUT_OF_HOST_MEMORY, "read");
    expect(t, memcmp(got, wanted, bytes) == 0, what);
    free(got);
}
#endif
