/* entry.c: the calls of OpenCL that the layer looks at. All others go on as they are. */
#include "layer.h"

cl_icd_dispatch below;
pthread_mutex_t lock = PTHREAD_MUTEX_INITIALIZER;
static cl_icd_dispatch here;

/* Retains and releases. What the program lets go is forgotten before OpenCL can give its handle to something else. */
#define COUNTED(TYPE, NAME, KIND)                                       \
    static cl_int CL_API_CALL own_clRetain##NAME(TYPE handle) {         \
        cl_int error = below.clRetain##NAME(handle);                    \
        if (!error) LOCKED(object_retain(handle, KIND));                \
        return error;                                                   \
    }                                                                   \
    static cl_int CL_API_CALL own_clRelease##NAME(TYPE handle) {        \
        LOCKED(object_release(handle, KIND));                           \
        return below.clRelease##NAME(handle);                           \
    }
COUNTED(cl_program, Program, OBJECT_PROGRAM)
COUNTED(cl_kernel, Kernel, OBJECT_KERNEL)
COUNTED(cl_mem, MemObject, OBJECT_MEMORY)

/* ---- programs ---- */

/* Keeps a program of a text, or of something else, which is said. */
static cl_program keep_program(cl_program handle, cl_context context, const struct text *text, const char *origin) {
    struct program *program = handle ? calloc(1, sizeof *program) : NULL;
    if (!program) return handle;
    pthread_mutex_lock(&lock);
    program->context = context;
    program->origin = origin;
    program->source = text && !text->is_short ? source_of(text->bytes ? text->bytes : "", text->n) : NULL;
    if (text && !program->source) program->origin = WANT_OF_MEMORY;
    if (program->origin) program->source = source_of("", 0);
    if (program->source) object_keep(&program->object, handle, OBJECT_PROGRAM);
    else free(program);
    pthread_mutex_unlock(&lock);
    return handle;
}

static cl_program CL_API_CALL own_clCreateProgramWithSource(cl_context context, cl_uint n, const char **strings, const size_t *lengths,
                                                         cl_int *error) {
    cl_program program = below.clCreateProgramWithSource(context, n, strings, lengths, error);
    struct text text = {0};
    cl_uint at;
    for (at = 0; program && at < n; at++)
        text_add_bytes(&text, strings[at], lengths && lengths[at] ? lengths[at] : strlen(strings[at]));
    keep_program(program, context, &text, NULL);
    text_free(&text);
    return program;
}

/* Programs of something else than a text. */
#define OF_NO_TEXT(CALL, WHY, PARAMETERS, ARGUMENTS)                      \
    static cl_program CL_API_CALL own_##CALL PARAMETERS {                 \
        return keep_program(below.CALL ARGUMENTS, context, NULL, WHY);    \
    }
OF_NO_TEXT(clCreateProgramWithBinary, "its program is a binary",
           (cl_context context, cl_uint n, const cl_device_id *devices, const size_t *lengths, const unsigned char **binaries,
            cl_int *states, cl_int *error), (context, n, devices, lengths, binaries, states, error))
OF_NO_TEXT(clCreateProgramWithBuiltInKernels, "it is built into the device",
           (cl_context context, cl_uint n, const cl_device_id *devices, const char *names, cl_int *error),
           (context, n, devices, names, error))
OF_NO_TEXT(clCreateProgramWithIL, "its program is of an intermediate language",
           (cl_context context, const void *il, size_t n, cl_int *error), (context, il, n, error))
OF_NO_TEXT(clLinkProgram, "its program was linked",
           (cl_context context, cl_uint devices_n, const cl_device_id *devices, const char *options, cl_uint n, const cl_program *programs,
            void(CL_CALLBACK *notify)(cl_program, void *), void *data, cl_int *error),
           (context, devices_n, devices, options, n, programs, notify, data, error))

/* The extensions of a program's devices, which have to be alike. */
static void extensions_of(cl_program program, struct text *extensions, struct text *why) {
    cl_device_id devices[64];
    cl_uint at, n = 0;
    if (below.clGetProgramInfo(program, CL_PROGRAM_NUM_DEVICES, sizeof n, &n, NULL) || n > 64 ||
        below.clGetProgramInfo(program, CL_PROGRAM_DEVICES, sizeof devices, devices, NULL))
        n = 0;
    for (at = 0; at < n; at++) {
        size_t length = 0;
        char *words = NULL;
        if (!below.clGetDeviceInfo(devices[at], CL_DEVICE_EXTENSIONS, 0, NULL, &length)) words = calloc(1, length + 1);
        if (!words || below.clGetDeviceInfo(devices[at], CL_DEVICE_EXTENSIONS, length, words, NULL)) why->is_short = true;
        else if (!at) text_add_bytes(extensions, words, strlen(words));
        else if (strcmp(words, words_of(extensions))) text_add(why, "its devices have other extensions each");
        free(words);
    }
    if (!n) text_add(why, "OpenCL does not tell its devices");
}

/* What is known of a program's next build; the lock is held. `some` says that not all devices are meant. */
static void build_read(struct program *program, const char *options, bool some, const struct text *extensions, struct text *why) {
    struct text defines = {0};
    if (program->origin && !why->n) text_add(why, "%s", program->origin);
    if (some && program->options && strcmp(program->options, options)) text_add(why, "it was built twice, with other options each");
    if (!why->n) options_read(options, program->source, words_of(extensions), &defines, why);
    free(program->options);
    text_free(&program->why);
    text_free(&program->defines);
    program->options = strdup(options);
    program->why = *why;
    program->defines = defines;
    if (!program->options || why->is_short || extensions->is_short) program->origin = WANT_OF_MEMORY;
}

static void keep_build(cl_program handle, const char *options, bool some, const char *origin) {
    struct text extensions = {0}, why = {0};
    struct program *program;
    if (origin) text_add(&why, "%s", origin);
    else extensions_of(handle, &extensions, &why);
    pthread_mutex_lock(&lock);
    program = (struct program *)object_find(handle, OBJECT_PROGRAM);
    if (program) build_read(program, options, some, &extensions, &why);
    else text_free(&why);
    pthread_mutex_unlock(&lock);
    text_free(&extensions);
}

static cl_int CL_API_CALL own_clBuildProgram(cl_program program, cl_uint n, const cl_device_id *devices, const char *options,
                                        void(CL_CALLBACK *notify)(cl_program, void *), void *data) {
    cl_int error;
    /* (what is known has to be there before `notify` is called) */
    keep_build(program, options ? options : "", devices != NULL, NULL);
    error = below.clBuildProgram(program, n, devices, options, notify, data);
    /* (after one that failed nobody says of which build the kernels are) */
    if (error) keep_build(program, "", false, "a build of it failed");
    return error;
}

static cl_int CL_API_CALL own_clCompileProgram(cl_program program, cl_uint n, const cl_device_id *devices, const char *options,
                                          cl_uint headers_n, const cl_program *headers, const char **names,
                                          void(CL_CALLBACK *notify)(cl_program, void *), void *data) {
    keep_build(program, "", false, "its program was compiled and linked");
    return below.clCompileProgram(program, n, devices, options, headers_n, headers, names, notify, data);
}

/* ---- kernels ---- */

/* What OpenCL tells of a kernel. */
static struct kernel *kernel_of(cl_kernel handle, cl_program program) {
    struct kernel *kernel = calloc(1, sizeof *kernel);
    cl_device_id device;
    if (!kernel) return NULL;
    if (!below.clGetKernelInfo(handle, CL_KERNEL_NUM_ARGS, sizeof kernel->arguments_n, &kernel->arguments_n, NULL))
        kernel->arguments = calloc((size_t)kernel->arguments_n + 1, sizeof *kernel->arguments);
    if (!below.clGetProgramInfo(program, CL_PROGRAM_DEVICES, sizeof device, &device, NULL))
        below.clGetKernelWorkGroupInfo(handle, device, CL_KERNEL_COMPILE_WORK_GROUP_SIZE, sizeof kernel->size, kernel->size, NULL);
    return kernel;
}

static void keep_kernel(cl_kernel handle, cl_program made_of, const char *name) {
    struct kernel *kernel = kernel_of(handle, made_of);
    const struct program *program;
    policy_table_at_end();
    pthread_mutex_lock(&lock);
    program = (const struct program *)object_find(made_of, OBJECT_PROGRAM);
    if (kernel && program) {
        kernel->subject = subject_of(program->source, name, words_of(&program->defines), program->options ? program->options : "",
                                     program->origin ? program->origin : words_of(&program->why));
        kernel->context = program->context;
    }
    if (kernel && kernel->arguments && kernel->subject) object_keep(&kernel->object, handle, OBJECT_KERNEL);
    else if (kernel) free(kernel->arguments), free(kernel);
    pthread_mutex_unlock(&lock);
}

static cl_kernel CL_API_CALL own_clCreateKernel(cl_program program, const char *name, cl_int *error) {
    cl_kernel kernel = below.clCreateKernel(program, name, error);
    if (kernel) keep_kernel(kernel, program, name);
    return kernel;
}

static cl_int CL_API_CALL own_clCreateKernelsInProgram(cl_program program, cl_uint n, cl_kernel *kernels, cl_uint *kernels_n) {
    cl_uint made = 0, at;
    cl_int error = below.clCreateKernelsInProgram(program, n, kernels, &made);
    if (kernels_n) *kernels_n = made;
    for (at = 0; !error && kernels && at < made; at++) {
        char name[512];
        if (!below.clGetKernelInfo(kernels[at], CL_KERNEL_FUNCTION_NAME, sizeof name, name, NULL)) keep_kernel(kernels[at], program, name);
    }
    return error;
}

static cl_kernel CL_API_CALL own_clCloneKernel(cl_kernel source, cl_int *error) {
    cl_kernel handle = below.clCloneKernel(source, error);
    struct kernel *kernel = handle ? calloc(1, sizeof *kernel) : NULL;
    const struct kernel *old;
    if (!kernel) return handle;
    pthread_mutex_lock(&lock);
    old = (const struct kernel *)object_find(source, OBJECT_KERNEL);
    if (old) *kernel = *old;
    if (old) kernel->arguments = malloc(((size_t)old->arguments_n + 1) * sizeof *old->arguments);
    if (kernel->arguments) memcpy(kernel->arguments, old->arguments, old->arguments_n * sizeof *old->arguments);
    if (kernel->arguments) object_keep(&kernel->object, handle, OBJECT_KERNEL);
    else free(kernel);
    pthread_mutex_unlock(&lock);
    return handle;
}

/* An argument as it was handed over: __local memory, a buffer that the layer has seen made, or a value. */
static struct argument argument_of(size_t n, const void *value) {
    struct argument argument = {.is_set = true};
    const struct memory *memory = NULL;
    if (value && n == sizeof argument.memory) {
        memcpy(&argument.memory, value, n);
        memory = (const struct memory *)object_find(argument.memory, OBJECT_MEMORY);
        if (!memory) argument.memory = NULL;
    }
    argument.said.kind = memory ? KV_BUFFER : value ? KV_VALUE : KV_LOCAL;
    argument.said.bytes = memory ? memory->bytes : n;
    argument.serial = memory ? memory->serial : 0;
    argument.is_unknown = value && n > sizeof argument.said.words;
    if (value && !memory && !argument.is_unknown) memcpy(argument.said.words, value, n);
    return argument;
}

static cl_int keep_argument(cl_int error, cl_kernel handle, cl_uint at, size_t n, const void *value, bool is_unknown) {
    struct kernel *kernel;
    pthread_mutex_lock(&lock);
    kernel = error ? NULL : (struct kernel *)object_find(handle, OBJECT_KERNEL);
    if (kernel && at < kernel->arguments_n) {
        kernel->arguments[at] = argument_of(n, value);
        kernel->arguments[at].is_unknown |= is_unknown;
    }
    pthread_mutex_unlock(&lock);
    return error;
}

static cl_int CL_API_CALL own_clSetKernelArg(cl_kernel kernel, cl_uint at, size_t n, const void *value) {
    return keep_argument(below.clSetKernelArg(kernel, at, n, value), kernel, at, n, value, false);
}

static cl_int CL_API_CALL own_clSetKernelArgSVMPointer(cl_kernel kernel, cl_uint at, const void *value) {
    return keep_argument(below.clSetKernelArgSVMPointer(kernel, at, value), kernel, at, 0, NULL, true);
}

/* ---- buffers ---- */

/* Keeps a buffer of its own, or a part of another one; else it is none that is known. */
static cl_mem keep_buffer(cl_mem handle, cl_mem_flags flags, size_t n, const void *given, cl_mem whole, size_t begin) {
    static uint64_t serial;
    struct memory *memory = handle ? calloc(1, sizeof *memory) : NULL;
    const struct memory *outer;
    bool on_host = flags & CL_MEM_USE_HOST_PTR;
    if (!memory) return handle;
    pthread_mutex_lock(&lock);
    outer = whole ? (const struct memory *)object_find(whole, OBJECT_MEMORY) : NULL;
    memory->serial = ++serial;
    memory->space = outer ? outer->space : on_host ? 0 : serial;
    memory->begin = outer ? outer->begin + begin : on_host ? (uint64_t)(uintptr_t)given : 0;
    memory->bytes = n;
    memory->is_read_only = flags & CL_MEM_READ_ONLY;
    if (outer && !(flags & (CL_MEM_READ_ONLY | CL_MEM_WRITE_ONLY | CL_MEM_READ_WRITE))) memory->is_read_only = outer->is_read_only;
    if (whole && !outer) free(memory);
    else object_keep(&memory->object, handle, OBJECT_MEMORY);
    pthread_mutex_unlock(&lock);
    return handle;
}

static cl_mem CL_API_CALL own_clCreateBuffer(cl_context context, cl_mem_flags flags, size_t n, void *given, cl_int *error) {
    return keep_buffer(below.clCreateBuffer(context, flags, n, given, error), flags, n, given, NULL, 0);
}

static cl_mem CL_API_CALL own_clCreateSubBuffer(cl_mem whole, cl_mem_flags flags, cl_buffer_create_type type, const void *given,
                                            cl_int *error) {
    cl_mem handle = below.clCreateSubBuffer(whole, flags, type, given, error);
    const cl_buffer_region *region = given;
    if (!handle || type != CL_BUFFER_CREATE_TYPE_REGION) return handle;
    return keep_buffer(handle, flags, region->size, NULL, whole, region->origin);
}

/* ---- launches ---- */

static cl_int CL_API_CALL own_clEnqueueNDRangeKernel(cl_command_queue queue, cl_kernel kernel, cl_uint dimensions, const size_t *offset,
                                         const size_t *global, const size_t *local, cl_uint events_n, const cl_event *events,
                                         cl_event *event) {
    const struct call call = {queue, kernel, dimensions, offset, global, local, events_n, events};
    if (!policy_allows(&call)) return CL_INVALID_OPERATION;
    return below.clEnqueueNDRangeKernel(queue, kernel, dimensions, offset, global, local, events_n, events, event);
}

static cl_int CL_API_CALL own_clEnqueueTask(cl_command_queue queue, cl_kernel kernel, cl_uint events_n, const cl_event *events,
                                       cl_event *event) {
    const size_t one = 1;
    const struct call call = {queue, kernel, 1, NULL, &one, &one, events_n, events};
    if (!policy_allows(&call)) return CL_INVALID_OPERATION;
    return below.clEnqueueTask(queue, kernel, events_n, events, event);
}

/* ---- the layer ---- */

CL_API_ENTRY cl_int CL_API_CALL clGetLayerInfo(cl_layer_info name, size_t n, void *value, size_t *needed) {
    static const cl_layer_api_version version = CL_LAYER_API_VERSION_100;
    const void *answer = name == CL_LAYER_NAME ? (const void *)"kverify" : &version;
    size_t length = name == CL_LAYER_NAME ? sizeof "kverify" : sizeof version;
    if ((name != CL_LAYER_NAME && name != CL_LAYER_API_VERSION) || (value && n < length)) return CL_INVALID_VALUE;
    if (value) memcpy(value, answer, length);
    if (needed) *needed = length;
    return CL_SUCCESS;
}

#define CALLS(TAKE)                                                                                                                     \
    TAKE(clCreateProgramWithSource) TAKE(clCreateProgramWithBinary) TAKE(clCreateProgramWithBuiltInKernels) TAKE(clCreateProgramWithIL) \
    TAKE(clLinkProgram) TAKE(clBuildProgram) TAKE(clCompileProgram) TAKE(clRetainProgram) TAKE(clReleaseProgram) TAKE(clCreateKernel)   \
    TAKE(clCreateKernelsInProgram) TAKE(clCloneKernel) TAKE(clRetainKernel) TAKE(clReleaseKernel) TAKE(clSetKernelArg)                  \
    TAKE(clSetKernelArgSVMPointer) TAKE(clCreateBuffer) TAKE(clCreateSubBuffer) TAKE(clRetainMemObject) TAKE(clReleaseMemObject)        \
    TAKE(clEnqueueNDRangeKernel) TAKE(clEnqueueTask)

CL_API_ENTRY cl_int CL_API_CALL clInitLayer(cl_uint n, const cl_icd_dispatch *target, cl_uint *needed, const cl_icd_dispatch **layer) {
    if (!target || !needed || !layer || n < sizeof here / sizeof(void *)) return CL_INVALID_VALUE;
    below = here = *target;
#define TAKE(CALL) here.CALL = own_##CALL;
    CALLS(TAKE)
    policy_begin();
    *needed = sizeof here / sizeof(void *);
    *layer = &here;
    return CL_SUCCESS;
}
