/* Runs one kernel by OpenCL and prints the milliseconds of each of its runs, and the sums of its buffers' words.

   usage: host RUNS FILE NAME GROUPS_X GROUPS_Y GROUPS_Z SIZE_X SIZE_Y SIZE_Z ARGUMENT..
   An argument is LENGTH:WORD, a buffer of so many words that all are WORD, or =WORD, a word. */
#define CL_TARGET_OPENCL_VERSION 120
#include <CL/cl.h>
#include <stdio.h>
#include <stdlib.h>
#include <string.h>
#include <time.h>

static double milliseconds(void) {
    struct timespec now;
    clock_gettime(CLOCK_MONOTONIC, &now);
    return now.tv_sec * 1e3 + now.tv_nsec / 1e6;
}

static void must(cl_int status, const char *what) {
    if (status != CL_SUCCESS) {
        fprintf(stderr, "%s: %d\n", what, status);
        exit(1);
    }
}

int main(int count, char **words) {
    if (count < 10) {
        fprintf(stderr, "usage: host RUNS FILE NAME GROUPS_X GROUPS_Y GROUPS_Z SIZE_X SIZE_Y SIZE_Z ARGUMENT..\n");
        return 2;
    }
    static char text[65536];
    FILE *file = fopen(words[2], "r");
    if (!file) {
        perror(words[2]);
        return 1;
    }
    size_t length = fread(text, 1, sizeof text - 1, file);
    const char *source = text;
    fclose(file);
    cl_platform_id platform;
    cl_device_id device;
    cl_int status;
    must(clGetPlatformIDs(1, &platform, NULL), "platform");
    must(clGetDeviceIDs(platform, CL_DEVICE_TYPE_ALL, 1, &device, NULL), "device");
    cl_context context = clCreateContext(NULL, 1, &device, NULL, NULL, &status);
    must(status, "context");
    cl_command_queue queue = clCreateCommandQueue(context, device, 0, &status);
    must(status, "queue");
    cl_program program = clCreateProgramWithSource(context, 1, &source, &length, &status);
    must(status, "program");
    must(clBuildProgram(program, 1, &device, "", NULL, NULL), "build");
    cl_kernel kernel = clCreateKernel(program, words[3], &status);
    must(status, "kernel");
    size_t local[3], global[3];
    for (int axis = 0; axis < 3; axis++) {
        local[axis] = strtoul(words[7 + axis], NULL, 10);
        global[axis] = strtoul(words[4 + axis], NULL, 10) * local[axis];
    }
    cl_mem buffers[16];
    size_t lengths[16];
    int used = 0;
    for (int at = 10; at < count; at++) {
        if (words[at][0] == '=') {
            cl_uint word = strtoul(words[at] + 1, NULL, 10);
            must(clSetKernelArg(kernel, at - 10, sizeof word, &word), "argument");
            continue;
        }
        lengths[used] = strtoul(words[at], NULL, 10);
        cl_uint word = strtoul(strchr(words[at], ':') + 1, NULL, 10);
        cl_uint *filled = malloc(lengths[used] * sizeof word);
        for (size_t index = 0; index < lengths[used]; index++) {
            filled[index] = word;
        }
        buffers[used] = clCreateBuffer(context, CL_MEM_READ_WRITE | CL_MEM_COPY_HOST_PTR, lengths[used] * sizeof word, filled, &status);
        must(status, "buffer");
        free(filled);
        must(clSetKernelArg(kernel, at - 10, sizeof(cl_mem), &buffers[used]), "argument");
        used++;
    }
    for (int run = 0; run < atoi(words[1]); run++) {
        double begun = milliseconds();
        must(clEnqueueNDRangeKernel(queue, kernel, 3, NULL, global, local, 0, NULL, NULL), "run");
        must(clFinish(queue), "finish");
        printf("%.3f\n", milliseconds() - begun);
    }
    for (int at = 0; at < used; at++) {
        cl_uint *read = malloc(lengths[at] * sizeof *read);
        must(clEnqueueReadBuffer(queue, buffers[at], CL_TRUE, 0, lengths[at] * sizeof *read, read, 0, NULL, NULL), "read");
        unsigned long long sum = 0;
        for (size_t index = 0; index < lengths[at]; index++) {
            sum += read[index];
        }
        printf("sum %llu\n", sum);
        free(read);
    }
    return 0;
}
