/* parameters.c: names and types of a kernel's parameters.
 *
 * OpenCL tells them of a program that was built with -cl-kernel-arg-info. The program's own build stays as it is: this one is the layer's.
 * Nothing rests on what is told here but how the words of a buffer are read (contents.c), since who checks conditions reads the kernel's
 * text. One thread at a time comes here. */
#include "layer.h"

static pthread_mutex_t turn = PTHREAD_MUTEX_INITIALIZER;

/* The last build: kernels of one program come one behind the other. */
static struct {
    const struct source *source;
    const char *defines;
    cl_context context;
    cl_program program;
} last;

static void forget(void) {
    if (last.program) below.clReleaseProgram(last.program);
    memset(&last, 0, sizeof last);
}

static bool build(const struct subject *subject, cl_context context, cl_device_id device) {
    const char *bytes = subject->source->bytes;
    struct text options = {0};
    cl_int error = CL_OUT_OF_HOST_MEMORY;
    if (last.program && last.source == subject->source && last.context == context && !strcmp(last.defines, subject->defines)) return true;
    forget();
    text_add(&options, "%s -cl-kernel-arg-info", subject->options);
    if (!options.is_short) last.program = below.clCreateProgramWithSource(context, 1, &bytes, &subject->source->n, &error);
    if (!error) error = below.clBuildProgram(last.program, 1, &device, options.bytes, NULL, NULL);
    text_free(&options);
    last.source = subject->source;
    last.defines = subject->defines;
    last.context = context;
    if (error) forget();
    return !error;
}

static const struct {
    const char *name;
    unsigned bytes;
    bool is_unsigned, is_float;
} scalars[] = {{"char", 1, false, false},         {"uchar", 1, true, false},          {"unsigned char", 1, true, false},
               {"short", 2, false, false},        {"ushort", 2, true, false},         {"unsigned short", 2, true, false},
               {"int", 4, false, false},          {"uint", 4, true, false},           {"unsigned int", 4, true, false},
               {"float", 4, true, true},          {"unsigned", 4, true, false},       {"signed char", 1, false, false},
               {"long", 8, false, false}};

/* A name of a type that is none of these, as one of a typedef, says nothing of its size. */
static void shape(struct parameter *parameter) {
    size_t n = strcspn(parameter->type, "*0123456789"), at;
    unsigned components = (unsigned)strtoul(parameter->type + n, NULL, 10);
    parameter->components = 1;
    parameter->is_guess = true;
    for (at = 0; at < sizeof scalars / sizeof *scalars; at++) {
        if (strlen(scalars[at].name) != n || memcmp(scalars[at].name, parameter->type, n) || components > 16) continue;
        parameter->components = components ? components : 1;
        parameter->bytes = scalars[at].bytes;
        parameter->is_unsigned = scalars[at].is_unsigned;
        parameter->is_float = scalars[at].is_float;
        parameter->is_guess = false;
    }
}

static bool ask(cl_kernel kernel, cl_uint at, struct parameter *parameter) {
    cl_kernel_arg_type_qualifier qualifier = 0;
    cl_int error;
    memset(parameter, 0, sizeof *parameter);
    error = below.clGetKernelArgInfo(kernel, at, CL_KERNEL_ARG_NAME, sizeof parameter->name, parameter->name, NULL);
    if (!error) error = below.clGetKernelArgInfo(kernel, at, CL_KERNEL_ARG_TYPE_NAME, sizeof parameter->type, parameter->type, NULL);
    if (!error)
        error = below.clGetKernelArgInfo(kernel, at, CL_KERNEL_ARG_TYPE_QUALIFIER, sizeof qualifier, &qualifier, NULL);
    if (error) return false;
    parameter->name[sizeof parameter->name - 1] = 0;
    parameter->type[sizeof parameter->type - 1] = 0;
    /* (pocl puts this in front of a name that is a function's, too) */
    if (!strncmp(parameter->name, "_cl_", 4)) memmove(parameter->name, parameter->name + 4, strlen(parameter->name + 4) + 1);
    parameter->is_const = qualifier & CL_KERNEL_ARG_TYPE_CONST;
    shape(parameter);
    return true;
}

void parameters_forget(void) {
    pthread_mutex_lock(&turn);
    forget();
    pthread_mutex_unlock(&turn);
}

static bool learn(struct subject *subject, cl_context context, cl_device_id device) {
    static struct parameter learned[ARGUMENTS_MOST];
    cl_kernel kernel;
    cl_uint n = 0, at;
    cl_int error;
    if (subject->has_parameters) return true;
    if (!build(subject, context, device)) return false;
    kernel = below.clCreateKernel(last.program, subject->name, &error);
    if (error) return false;
    error = below.clGetKernelInfo(kernel, CL_KERNEL_NUM_ARGS, sizeof n, &n, NULL);
    for (at = 0; !error && at < n && n <= ARGUMENTS_MOST; at++)
        if (!ask(kernel, at, &learned[at])) error = CL_KERNEL_ARG_INFO_NOT_AVAILABLE;
    below.clReleaseKernel(kernel);
    if (error || n > ARGUMENTS_MOST) return false;
    LOCKED(memcpy(subject->parameters, learned, n * sizeof *learned); subject->parameters_n = n; subject->has_parameters = true);
    return true;
}

bool parameters_learn(struct subject *subject, cl_context context, cl_device_id device) {
    bool is_learned;
    pthread_mutex_lock(&turn);
    is_learned = learn(subject, context, device);
    pthread_mutex_unlock(&turn);
    return is_learned;
}
