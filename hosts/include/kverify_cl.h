/* kverify_cl.h: launches of checked kernels alone. One place hands the same numbers to OpenCL and to kverify.
 *
 * kv_cl_open checks a kernel, and builds it of exactly the checked bytes, with the options that its conditions ask for. kv_cl_value,
 * kv_cl_buffer and kv_cl_local keep an argument. kv_cl_enqueue asks kv_allows, and only where that answers 0 do the arguments and the
 * launch go to OpenCL. All four answer 0, a refusal of kverify.h above 0 (`answer` says more of it), or an error of OpenCL below 0.
 *
 * As a cl_kernel, a kv_cl is for one thread at a time. Leave its `kernel` to these functions: what is set or enqueued past them nobody
 * asked for. The host answers for what kverify.h says that the library cannot see, but for these, which are seen to here: the bytes and
 * the options that the program is built of, which kernel of the file it is, the numbers of arguments and sizes, and that buffers have no
 * memory in common (sub-buffers that overlap, and buffers on the same memory of the host, count as one). A buffer that was handed over is
 * kept until another one takes its place, or until kv_cl_close.
 */
#ifndef KVERIFY_CL_H
#define KVERIFY_CL_H
#ifndef CL_TARGET_OPENCL_VERSION
#define CL_TARGET_OPENCL_VERSION 120
#endif
#include <CL/cl.h>
#include <stdlib.h>
#include <string.h>
#include "kverify.h"

/* What OpenCL gets for an argument of kv_allows. */
typedef struct {
    cl_mem memory;   /* a buffer, or NULL */
    uint64_t origin; /* the buffer that it is a part of, or 0 for memory of the host */
    uint64_t begin;  /* at which byte of that it begins */
    int is_new;      /* OpenCL has not got it yet */
} kv_cl_argument;

typedef struct {
    cl_program program;
    cl_kernel kernel;
    kv_kernel *checked;
    uint32_t options;
    cl_uint arguments_n;
    kv_argument *arguments;
    kv_cl_argument *places;
    kv_answer answer; /* why the last call was refused */
} kv_cl;

/* Lets all go that kv_cl_open made, also where that failed. */
static inline void kv_cl_close(kv_cl *k) {
    cl_uint at;
    for (at = 0; k->places && at < k->arguments_n; at++)
        if (k->places[at].memory) clReleaseMemObject(k->places[at].memory);
    if (k->kernel) clReleaseKernel(k->kernel);
    if (k->program) clReleaseProgram(k->program);
    if (k->checked) kv_close(k->checked);
    free(k->arguments);
    free(k->places);
    memset(k, 0, sizeof *k);
}

/* A text with a 0 behind it, to be freed. */
static inline char *kv_cl_text(const char *text, size_t n) {
    char *copy = (char *)malloc(n + 1);
    if (copy) memcpy(copy, text, n);
    if (copy) copy[n] = 0;
    return copy;
}

/* The name in the line `kernel NAME`, which is the second one of conditions that have it; else an empty text. To be freed. */
static inline char *kv_cl_name(const char *conditions, size_t n) {
    static const char word[] = "kernel ";
    const char *end, *line = (const char *)memchr(conditions, '\n', n);
    size_t left = line ? n - (size_t)(++line - conditions) : 0;
    if (left < sizeof word || memcmp(line, word, sizeof word - 1)) return kv_cl_text("", 0);
    line += sizeof word - 1;
    end = (const char *)memchr(line, '\n', left - (sizeof word - 1));
    return kv_cl_text(line, end ? (size_t)(end - line) : 0);
}

/* Whether OpenCL takes options just as they are meant: a word for each `define` line, and nothing that drivers quote. */
static inline int kv_cl_are_words(const char *options, const char *conditions, size_t n) {
    static const char line[] = "\ndefine ";
    size_t at, lines = 0, words = *options ? 1 : 0;
    for (at = 0; at + sizeof line <= n; at++) lines += memcmp(conditions + at, line, sizeof line - 1) == 0;
    for (at = 0; options[at]; at++) words += options[at] == ' ';
    return words == lines && !strpbrk(options, "\"'\\\t");
}

/* The options that the program is built with, to be freed; NULL where there is no memory. */
static inline char *kv_cl_options(const void *conditions, size_t n) {
    uint64_t length = kv_options(conditions, n, (char *)"", 0);
    char *options = (char *)malloc(length + 1);
    if (!options) return NULL;
    kv_options(conditions, n, options, length);
    options[length] = 0;
    return options;
}

/* Builds the program as OpenCL C 1.2. */
static inline cl_int kv_cl_build(kv_cl *k, cl_context context, cl_device_id device, const char *text, size_t n, const char *words) {
    static const char standard[] = "-cl-std=CL1.2 ";
    char *options = (char *)malloc(sizeof standard + strlen(words));
    cl_int error = options ? CL_SUCCESS : CL_OUT_OF_HOST_MEMORY;
    if (options) strcat(strcpy(options, standard), words);
    if (!error) k->program = clCreateProgramWithSource(context, 1, &text, &n, &error);
    if (!error) error = clBuildProgram(k->program, 1, &device, options, NULL, NULL);
    free(options);
    return error;
}

/* The kernel of this name; without a name the only one. */
static inline cl_int kv_cl_choose(kv_cl *k, const char *name) {
    cl_int error = CL_SUCCESS;
    if (*name)
        k->kernel = clCreateKernel(k->program, name, &error);
    else
        error = clCreateKernelsInProgram(k->program, 1, &k->kernel, NULL);
    return error ? error : clGetKernelInfo(k->kernel, CL_KERNEL_NUM_ARGS, sizeof k->arguments_n, &k->arguments_n, NULL);
}

/* Room for all arguments, of which none is set. */
static inline cl_int kv_cl_make_room(kv_cl *k) {
    k->arguments = (kv_argument *)calloc((size_t)k->arguments_n + 1, sizeof *k->arguments);
    k->places = (kv_cl_argument *)calloc((size_t)k->arguments_n + 1, sizeof *k->places);
    if (k->arguments && k->places) return CL_SUCCESS;
    k->arguments_n = 0;
    return CL_OUT_OF_HOST_MEMORY;
}

static inline cl_int kv_cl_fits(cl_device_id device, uint32_t options) {
    cl_uint bits = 0;
    cl_int error = clGetDeviceInfo(device, CL_DEVICE_ADDRESS_BITS, sizeof bits, &bits, NULL);
    if (error) return error;
    return (options & KV_BITS32) && bits != 32 ? CL_INVALID_DEVICE : CL_SUCCESS;
}

/* Checks a kernel and builds it for a device. `options` are those of kv_open. Call kv_cl_close in the end, also where this failed; until
 * then `program` has the log of a build that failed. */
static inline cl_int kv_cl_open(kv_cl *k, cl_context context, cl_device_id device, const void *kernel, size_t kernel_n,
                                const void *conditions, size_t conditions_n, const void *certificate, size_t certificate_n,
                                uint32_t options) {
    char *name, *words;
    cl_int error;
    memset(k, 0, sizeof *k);
    k->options = options & KV_BITS32;
    error = kv_cl_fits(device, k->options);
    if (error) return error;
    error = (cl_int)kv_open(kernel, kernel_n, conditions, conditions_n, certificate, certificate_n, k->options, &k->checked, &k->answer);
    if (error) return error;
    name = kv_cl_name((const char *)conditions, conditions_n);
    words = kv_cl_options(conditions, conditions_n);
    error = name && words ? CL_SUCCESS : CL_OUT_OF_HOST_MEMORY;
    if (!error && !kv_cl_are_words(words, (const char *)conditions, conditions_n)) error = CL_INVALID_BUILD_OPTIONS;
    if (!error) error = kv_cl_build(k, context, device, (const char *)kernel, kernel_n, words);
    if (!error) error = kv_cl_choose(k, name);
    if (!error) error = kv_cl_make_room(k);
    free(name);
    free(words);
    return error;
}

/* Keeps an argument, in the place of an earlier one. */
static inline cl_int kv_cl_keep(kv_cl *k, cl_uint index, const kv_argument *argument, const kv_cl_argument *place) {
    cl_int error = CL_SUCCESS;
    if (index >= k->arguments_n) return CL_INVALID_ARG_INDEX;
    if (place->memory) error = clRetainMemObject(place->memory);
    if (error) return error;
    if (k->places[index].memory) clReleaseMemObject(k->places[index].memory);
    k->arguments[index] = *argument;
    k->places[index] = *place;
    k->places[index].is_new = 1;
    return CL_SUCCESS;
}

/* The bytes of a value, of a scalar or a vector. */
static inline cl_int kv_cl_value(kv_cl *k, cl_uint index, const void *value, size_t bytes) {
    kv_argument argument;
    kv_cl_argument place;
    memset(&argument, 0, sizeof argument);
    memset(&place, 0, sizeof place);
    if (bytes < 1 || bytes > sizeof argument.words) return CL_INVALID_ARG_SIZE;
    argument.kind = KV_VALUE;
    argument.bytes = bytes;
    memcpy(argument.words, value, bytes);
    return kv_cl_keep(k, index, &argument, &place);
}

/* So many bytes of __local memory. */
static inline cl_int kv_cl_local(kv_cl *k, cl_uint index, size_t bytes) {
    kv_argument argument;
    kv_cl_argument place;
    memset(&argument, 0, sizeof argument);
    memset(&place, 0, sizeof place);
    argument.kind = KV_LOCAL;
    argument.bytes = bytes;
    return kv_cl_keep(k, index, &argument, &place);
}

/* Where a buffer lies: in itself, in the buffer that it is a part of, or in memory that the host gave. */
static inline cl_int kv_cl_find(cl_mem memory, kv_cl_argument *place) {
    cl_mem_object_type type = 0;
    cl_mem whole = NULL;
    cl_mem_flags flags = 0;
    size_t offset = 0;
    void *given = NULL;
    cl_int error = clGetMemObjectInfo(memory, CL_MEM_TYPE, sizeof type, &type, NULL);
    if (!error && type != CL_MEM_OBJECT_BUFFER) error = CL_INVALID_MEM_OBJECT;
    if (!error) error = clGetMemObjectInfo(memory, CL_MEM_FLAGS, sizeof flags, &flags, NULL);
    if (!error) error = clGetMemObjectInfo(memory, CL_MEM_ASSOCIATED_MEMOBJECT, sizeof whole, &whole, NULL);
    if (!error) error = clGetMemObjectInfo(memory, CL_MEM_OFFSET, sizeof offset, &offset, NULL);
    if (!error && whole) error = clGetMemObjectInfo(whole, CL_MEM_FLAGS, sizeof flags, &flags, NULL);
    if (!error && (flags & CL_MEM_USE_HOST_PTR))
        error = clGetMemObjectInfo(whole ? whole : memory, CL_MEM_HOST_PTR, sizeof given, &given, NULL);
    if (error) return error;
    place->memory = memory;
    place->origin = given ? 0 : (uint64_t)(uintptr_t)(whole ? whole : memory);
    place->begin = (uint64_t)(uintptr_t)given + (whole ? offset : 0);
    return CL_SUCCESS;
}

/* A buffer, or a sub-buffer. Its size is asked for here. */
static inline cl_int kv_cl_buffer(kv_cl *k, cl_uint index, cl_mem memory) {
    kv_argument argument;
    kv_cl_argument place;
    size_t bytes = 0;
    cl_int error = clGetMemObjectInfo(memory, CL_MEM_SIZE, sizeof bytes, &bytes, NULL);
    memset(&argument, 0, sizeof argument);
    memset(&place, 0, sizeof place);
    if (!error) error = kv_cl_find(memory, &place);
    argument.kind = KV_BUFFER;
    argument.bytes = bytes;
    return error ? error : kv_cl_keep(k, index, &argument, &place);
}

/* Whether the buffers of two arguments have memory in common. */
static inline int kv_cl_overlap(const kv_cl *k, cl_uint one, cl_uint other) {
    const kv_cl_argument *a = &k->places[one], *b = &k->places[other];
    if (!a->memory || !b->memory || a->origin != b->origin) return 0;
    return a->begin < b->begin + k->arguments[other].bytes && b->begin < a->begin + k->arguments[one].bytes;
}

/* Numbers the memory of the buffers: those that have memory in common get one number. */
static inline void kv_cl_number(kv_cl *k) {
    cl_uint at, before;
    for (at = 0; at < k->arguments_n; at++) {
        if (!k->places[at].memory) continue;
        for (before = 0; before < at && !kv_cl_overlap(k, before, at); before++) continue;
        k->arguments[at].memory = before < at ? k->arguments[before].memory : (uint64_t)at + 1;
    }
}

/* Hands an argument to OpenCL as kv_allows got it. */
static inline cl_int kv_cl_set(kv_cl *k, cl_uint index) {
    const kv_argument *argument = &k->arguments[index];
    if (argument->kind == KV_BUFFER) return clSetKernelArg(k->kernel, index, sizeof(cl_mem), &k->places[index].memory);
    return clSetKernelArg(k->kernel, index, (size_t)argument->bytes, argument->kind == KV_LOCAL ? NULL : argument->words);
}

static inline cl_int kv_cl_set_all(kv_cl *k) {
    cl_uint at;
    for (at = 0; at < k->arguments_n; at++) {
        cl_int error = k->places[at].is_new ? kv_cl_set(k, at) : CL_SUCCESS;
        if (error) return error;
        k->places[at].is_new = 0;
    }
    return CL_SUCCESS;
}

/* As clEnqueueNDRangeKernel, for a launch that is allowed. `offset` may be NULL. `local` may not: what a device chooses nobody has shown.
 * `held` is KV_HELD where the host answers for what the `values` lines of the conditions say of its buffers, else 0. */
static inline cl_int kv_cl_enqueue(kv_cl *k, cl_command_queue queue, cl_uint dimensions, const size_t *offset, const size_t *global,
                                   const size_t *local, uint32_t held, cl_uint events_n, const cl_event *events, cl_event *event) {
    kv_range range;
    cl_uint at;
    cl_int error;
    if (!k->kernel || !k->arguments || !k->places) return CL_INVALID_KERNEL;
    memset(&range, 0, sizeof range);
    range.dimensions = dimensions;
    for (at = 0; at < dimensions && at < 3; at++) {
        range.offset[at] = offset ? offset[at] : 0;
        range.global[at] = global ? global[at] : 0;
        range.local[at] = local ? local[at] : 0;
    }
    kv_cl_number(k);
    error = (cl_int)kv_allows(k->checked, k->options | (held & KV_HELD), &range, k->arguments, k->arguments_n, &k->answer);
    if (!error) error = kv_cl_set_all(k);
    if (error) return error;
    return clEnqueueNDRangeKernel(queue, k->kernel, dimensions, offset, global, local, events_n, events, event);
}
#endif
