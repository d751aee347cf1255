/* A library of OpenCL that has one device and runs nothing. It writes each program that is built into a file of the folder that
   REAL_FOLDER names: its options in the first line, behind it its text. REAL_DEVICE=cpu makes the device a processor. */
#define CL_TARGET_OPENCL_VERSION 120
#include <CL/cl.h>
#include <ctype.h>
#include <stdio.h>
#include <stdlib.h>
#include <string.h>

/* All objects are of one kind. */
typedef struct object {
    char *text; /* a program's text, a kernel's name */
    size_t size;
    void *memory;
    struct object *context;
} object;

static int platform_object, device_object;
#define PLATFORM ((cl_platform_id)&platform_object)
#define DEVICE ((cl_device_id)&device_object)

static object *make(object *context) {
    object *made = calloc(1, sizeof(object));
    made->context = context;
    return made;
}

static cl_int give(const void *value, size_t length, size_t size, void *to, size_t *wanted) {
    if (wanted) *wanted = length;
    if (to) memcpy(to, value, length < size ? length : size);
    return CL_SUCCESS;
}
static cl_int give_text(const char *text, size_t size, void *to, size_t *wanted) {
    return give(text, strlen(text) + 1, size, to, wanted);
}
/* A number in as many bytes as the caller has room for, 8 where it asks how many. */
static cl_int give_number(unsigned long number, size_t size, void *to, size_t *wanted) {
    return give(&number, to && size < 8 ? size : 8, size, to, wanted);
}

static int is_cpu(void) {
    const char *device = getenv("REAL_DEVICE");
    return device && strcmp(device, "cpu") == 0;
}

cl_int clGetPlatformIDs(cl_uint room, cl_platform_id *to, cl_uint *count) {
    if (to && room) *to = PLATFORM;
    if (count) *count = 1;
    return CL_SUCCESS;
}
cl_int clGetPlatformInfo(cl_platform_id platform, cl_platform_info what, size_t size, void *to, size_t *wanted) {
    const char *text = what == CL_PLATFORM_VERSION ? "OpenCL 1.2 none" : what == CL_PLATFORM_PROFILE ? "FULL_PROFILE"
        : what == CL_PLATFORM_EXTENSIONS ? "" : "none";
    return give_text(text, size, to, wanted);
}
cl_int clGetDeviceIDs(cl_platform_id platform, cl_device_type type, cl_uint room, cl_device_id *to, cl_uint *count) {
    if (to && room) *to = DEVICE;
    if (count) *count = 1;
    return CL_SUCCESS;
}
cl_int clGetDeviceInfo(cl_device_id device, cl_device_info what, size_t size, void *to, size_t *wanted) {
    size_t sizes[3] = {256, 256, 64};
    cl_platform_id platform = PLATFORM;
    switch (what) {
    case CL_DEVICE_TYPE: return give_number(is_cpu() ? CL_DEVICE_TYPE_CPU : CL_DEVICE_TYPE_GPU, size, to, wanted);
    case CL_DEVICE_NAME: case CL_DEVICE_VENDOR: case CL_DRIVER_VERSION: return give_text("none", size, to, wanted);
    case CL_DEVICE_VERSION: return give_text("OpenCL 1.2 none", size, to, wanted);
    case CL_DEVICE_OPENCL_C_VERSION: return give_text("OpenCL C 1.2 none", size, to, wanted);
    case CL_DEVICE_PROFILE: return give_text("FULL_PROFILE", size, to, wanted);
    case CL_DEVICE_EXTENSIONS: return give_text("cl_khr_global_int32_base_atomics cl_khr_local_int32_base_atomics", size, to, wanted);
    case CL_DEVICE_BUILT_IN_KERNELS: return give_text("", size, to, wanted);
    case CL_DEVICE_PLATFORM: return give(&platform, sizeof platform, size, to, wanted);
    case CL_DEVICE_MAX_WORK_ITEM_SIZES: return give(sizes, sizeof sizes, size, to, wanted);
    case CL_DEVICE_MAX_WORK_ITEM_DIMENSIONS: return give_number(3, size, to, wanted);
    case CL_DEVICE_MAX_WORK_GROUP_SIZE: return give_number(256, size, to, wanted);
    case CL_DEVICE_MAX_COMPUTE_UNITS: return give_number(16, size, to, wanted);
    case CL_DEVICE_ADDRESS_BITS: return give_number(64, size, to, wanted);
    case CL_DEVICE_LOCAL_MEM_SIZE: return give_number(32768, size, to, wanted);
    case CL_DEVICE_LOCAL_MEM_TYPE: return give_number(CL_LOCAL, size, to, wanted);
    case CL_DEVICE_GLOBAL_MEM_SIZE: case CL_DEVICE_MAX_MEM_ALLOC_SIZE: return give_number(1ul << 30, size, to, wanted);
    case CL_DEVICE_MAX_PARAMETER_SIZE: return give_number(4096, size, to, wanted);
    case CL_DEVICE_MAX_CLOCK_FREQUENCY: return give_number(1000, size, to, wanted);
    case CL_DEVICE_MEM_BASE_ADDR_ALIGN: return give_number(1024, size, to, wanted);
    case CL_DEVICE_DOUBLE_FP_CONFIG: case CL_DEVICE_PARENT_DEVICE: return give_number(0, size, to, wanted);
    default: return give_number(1, size, to, wanted);
    }
}

#define RETAINED(name, type) cl_int clRetain##name(type it) { return CL_SUCCESS; } cl_int clRelease##name(type it) { return CL_SUCCESS; }
RETAINED(Context, cl_context)
RETAINED(CommandQueue, cl_command_queue)
RETAINED(MemObject, cl_mem)
RETAINED(Program, cl_program)
RETAINED(Kernel, cl_kernel)
RETAINED(Event, cl_event)
RETAINED(Device, cl_device_id)
RETAINED(Sampler, cl_sampler)

cl_context clCreateContext(const cl_context_properties *properties, cl_uint count, const cl_device_id *devices,
        void (*tell)(const char *, const void *, size_t, void *), void *data, cl_int *fault) {
    if (fault) *fault = CL_SUCCESS;
    return (cl_context)make(NULL);
}
cl_context clCreateContextFromType(const cl_context_properties *properties, cl_device_type type,
        void (*tell)(const char *, const void *, size_t, void *), void *data, cl_int *fault) {
    return clCreateContext(properties, 1, NULL, tell, data, fault);
}
cl_int clGetContextInfo(cl_context context, cl_context_info what, size_t size, void *to, size_t *wanted) {
    cl_device_id device = DEVICE;
    if (what == CL_CONTEXT_DEVICES) return give(&device, sizeof device, size, to, wanted);
    return what == CL_CONTEXT_PROPERTIES ? give(&device, 0, size, to, wanted) : give_number(1, size, to, wanted);
}
cl_command_queue clCreateCommandQueue(cl_context context, cl_device_id device, cl_command_queue_properties properties, cl_int *fault) {
    if (fault) *fault = CL_SUCCESS;
    return (cl_command_queue)make((object *)context);
}
cl_int clGetCommandQueueInfo(cl_command_queue queue, cl_command_queue_info what, size_t size, void *to, size_t *wanted) {
    cl_device_id device = DEVICE;
    object *context = ((object *)queue)->context;
    if (what == CL_QUEUE_DEVICE) return give(&device, sizeof device, size, to, wanted);
    return what == CL_QUEUE_CONTEXT ? give(&context, sizeof context, size, to, wanted) : give_number(0, size, to, wanted);
}

cl_mem clCreateBuffer(cl_context context, cl_mem_flags flags, size_t size, void *from, cl_int *fault) {
    object *made = make((object *)context);
    made->size = size;
    made->memory = calloc(1, size + 64);
    if (from && (flags & (CL_MEM_COPY_HOST_PTR | CL_MEM_USE_HOST_PTR))) memcpy(made->memory, from, size);
    if (fault) *fault = CL_SUCCESS;
    return (cl_mem)made;
}
cl_int clGetMemObjectInfo(cl_mem memory, cl_mem_info what, size_t size, void *to, size_t *wanted) {
    object *it = (object *)memory;
    if (what == CL_MEM_CONTEXT) return give(&it->context, sizeof it->context, size, to, wanted);
    return give_number(what == CL_MEM_SIZE ? it->size : what == CL_MEM_TYPE ? CL_MEM_OBJECT_BUFFER : 1, size, to, wanted);
}

cl_program clCreateProgramWithSource(cl_context context, cl_uint count, const char **texts, const size_t *lengths, cl_int *fault) {
    object *made = make((object *)context);
    size_t length = 0;
    for (cl_uint at = 0; at < count; at++) {
        size_t next = lengths && lengths[at] ? lengths[at] : strlen(texts[at]);
        made->text = realloc(made->text, length + next + 1);
        memcpy(made->text + length, texts[at], next);
        length += next;
        made->text[length] = 0;
    }
    if (fault) *fault = CL_SUCCESS;
    return (cl_program)made;
}
cl_program clCreateProgramWithBinary(cl_context context, cl_uint count, const cl_device_id *devices, const size_t *lengths,
        const unsigned char **binaries, cl_int *states, cl_int *fault) {
    if (fault) *fault = CL_INVALID_BINARY;
    return NULL;
}
cl_int clBuildProgram(cl_program program, cl_uint count, const cl_device_id *devices, const char *options,
        void (*tell)(cl_program, void *), void *data) {
    static int number;
    char name[4096];
    snprintf(name, sizeof name, "%s/%04d.cl", getenv("REAL_FOLDER"), number++);
    FILE *file = fopen(name, "w");
    if (file) {
        fprintf(file, "%s\n%s", options ? options : "", ((object *)program)->text);
        fclose(file);
    }
    if (tell) tell(program, data);
    return CL_SUCCESS;
}
/* The name of the next kernel of a text behind a place; where its parameters begin. */
static const char *next_kernel(const char *from, char name[256]) {
    while ((from = strstr(from, "kernel"))) {
        const char *at = from += strlen("kernel");
        while ((at = strstr(at, "void"))) {
            at += strlen("void");
            if (isspace((unsigned char)*at)) break;
        }
        if (!at) return NULL;
        while (isspace((unsigned char)*at)) at++;
        size_t length = 0;
        while ((isalnum((unsigned char)at[length]) || at[length] == '_') && length < 255) length++;
        const char *behind = at + length;
        while (isspace((unsigned char)*behind)) behind++;
        if (length && *behind == '(') {
            memcpy(name, at, length);
            name[length] = 0;
            return behind;
        }
    }
    return NULL;
}
cl_int clGetProgramInfo(cl_program program, cl_program_info what, size_t size, void *to, size_t *wanted) {
    object *it = (object *)program;
    cl_device_id device = DEVICE;
    char names[65536] = "", name[256];
    size_t count = 0;
    for (const char *at = it->text; (at = next_kernel(at, name)); count++)
        if (strlen(names) + strlen(name) + 2 < sizeof names) strcat(strcat(names, *names ? ";" : ""), name);
    switch (what) {
    case CL_PROGRAM_CONTEXT: return give(&it->context, sizeof it->context, size, to, wanted);
    case CL_PROGRAM_DEVICES: return give(&device, sizeof device, size, to, wanted);
    case CL_PROGRAM_SOURCE: return give_text(it->text, size, to, wanted);
    case CL_PROGRAM_KERNEL_NAMES: return give_text(names, size, to, wanted);
    case CL_PROGRAM_NUM_KERNELS: return give_number(count, size, to, wanted);
    case CL_PROGRAM_BINARIES:
        if (to && size >= sizeof(char *) && *(char **)to) **(char **)to = 0;
        return give(&it, 0, size, to, wanted);
    default: return give_number(1, size, to, wanted);
    }
}
cl_int clGetProgramBuildInfo(cl_program program, cl_device_id device, cl_program_build_info what, size_t size, void *to, size_t *wanted) {
    return what == CL_PROGRAM_BUILD_STATUS ? give_number(0, size, to, wanted) : give_text("", size, to, wanted);
}
cl_kernel clCreateKernel(cl_program program, const char *name, cl_int *fault) {
    object *made = make((object *)program);
    made->text = strdup(name);
    if (fault) *fault = CL_SUCCESS;
    return (cl_kernel)made;
}
cl_int clCreateKernelsInProgram(cl_program program, cl_uint room, cl_kernel *to, cl_uint *count) {
    char name[256];
    cl_uint made = 0;
    for (const char *at = ((object *)program)->text; (at = next_kernel(at, name)); made++)
        if (to && made < room) to[made] = clCreateKernel(program, name, NULL);
    if (count) *count = made;
    return CL_SUCCESS;
}
cl_int clGetKernelInfo(cl_kernel kernel, cl_kernel_info what, size_t size, void *to, size_t *wanted) {
    object *it = (object *)kernel;
    if (what == CL_KERNEL_FUNCTION_NAME) return give_text(it->text, size, to, wanted);
    if (what == CL_KERNEL_PROGRAM) return give(&it->context, sizeof it->context, size, to, wanted);
    if (what == CL_KERNEL_CONTEXT) return give(&it->context->context, sizeof it->context, size, to, wanted);
    char name[256];
    const char *at = it->context->text;
    while ((at = next_kernel(at, name)) && strcmp(name, it->text));
    size_t count = 1;
    for (int open = 0; at && *at; at++) {
        open += (*at == '(') - (*at == ')');
        if (!open) break;
        count += open == 1 && *at == ',';
    }
    return give_number(what == CL_KERNEL_NUM_ARGS ? count : 1, size, to, wanted);
}
cl_int clGetKernelWorkGroupInfo(cl_kernel kernel, cl_device_id device, cl_kernel_work_group_info what, size_t size, void *to,
        size_t *wanted) {
    size_t sizes[3] = {0, 0, 0};
    if (what == CL_KERNEL_COMPILE_WORK_GROUP_SIZE) return give(sizes, sizeof sizes, size, to, wanted);
    return give_number(what == CL_KERNEL_WORK_GROUP_SIZE ? 256 : what == CL_KERNEL_LOCAL_MEM_SIZE ? 0 : 32, size, to, wanted);
}
cl_int clSetKernelArg(cl_kernel kernel, cl_uint at, size_t size, const void *value) { return CL_SUCCESS; }

static cl_int done(cl_event *event) {
    if (event) *event = (cl_event)make(NULL);
    return CL_SUCCESS;
}
cl_int clEnqueueNDRangeKernel(cl_command_queue queue, cl_kernel kernel, cl_uint dimensions, const size_t *offset, const size_t *global,
        const size_t *local, cl_uint count, const cl_event *behind, cl_event *event) {
    return done(event);
}
cl_int clEnqueueTask(cl_command_queue queue, cl_kernel kernel, cl_uint count, const cl_event *behind, cl_event *event) {
    return done(event);
}
cl_int clEnqueueReadBuffer(cl_command_queue queue, cl_mem memory, cl_bool waits, size_t offset, size_t size, void *to, cl_uint count,
        const cl_event *behind, cl_event *event) {
    memcpy(to, (char *)((object *)memory)->memory + offset, size);
    return done(event);
}
cl_int clEnqueueWriteBuffer(cl_command_queue queue, cl_mem memory, cl_bool waits, size_t offset, size_t size, const void *from,
        cl_uint count, const cl_event *behind, cl_event *event) {
    memcpy((char *)((object *)memory)->memory + offset, from, size);
    return done(event);
}
cl_int clEnqueueCopyBuffer(cl_command_queue queue, cl_mem from, cl_mem to, size_t at, size_t offset, size_t size, cl_uint count,
        const cl_event *behind, cl_event *event) {
    memmove((char *)((object *)to)->memory + offset, (char *)((object *)from)->memory + at, size);
    return done(event);
}
cl_int clEnqueueFillBuffer(cl_command_queue queue, cl_mem memory, const void *pattern, size_t length, size_t offset, size_t size,
        cl_uint count, const cl_event *behind, cl_event *event) {
    return done(event);
}
void *clEnqueueMapBuffer(cl_command_queue queue, cl_mem memory, cl_bool waits, cl_map_flags flags, size_t offset, size_t size,
        cl_uint count, const cl_event *behind, cl_event *event, cl_int *fault) {
    if (fault) *fault = CL_SUCCESS;
    done(event);
    return (char *)((object *)memory)->memory + offset;
}
cl_int clEnqueueUnmapMemObject(cl_command_queue queue, cl_mem memory, void *at, cl_uint count, const cl_event *behind, cl_event *event) {
    return done(event);
}
cl_int clEnqueueMarkerWithWaitList(cl_command_queue queue, cl_uint count, const cl_event *behind, cl_event *event) { return done(event); }
cl_int clEnqueueBarrierWithWaitList(cl_command_queue queue, cl_uint count, const cl_event *behind, cl_event *event) { return done(event); }
cl_int clEnqueueMarker(cl_command_queue queue, cl_event *event) { return done(event); }
cl_int clGetEventInfo(cl_event event, cl_event_info what, size_t size, void *to, size_t *wanted) {
    return give_number(0, size, to, wanted);
}
cl_int clGetEventProfilingInfo(cl_event event, cl_profiling_info what, size_t size, void *to, size_t *wanted) {
    return give_number(0, size, to, wanted);
}
