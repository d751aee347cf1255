/* A program over CLBlast, as one would write it without the layer: axpy, dot, gemv, gemm. */
#define CL_TARGET_OPENCL_VERSION 120
#include <clblast_c.h>
#include <math.h>
#include <stdio.h>
#include <stdlib.h>

#define N 128

static cl_context context;
static cl_command_queue queue;

static cl_mem make(const float *host, size_t n) {
    return clCreateBuffer(context, CL_MEM_READ_WRITE | CL_MEM_COPY_HOST_PTR, n * sizeof *host, (void *)host, NULL);
}

int main(void) {
    static float x[N], y[N], a[N * N], result[N], square[N * N];
    float dot = 0;
    cl_platform_id platform;
    cl_device_id device;
    size_t at;
    int wrong;
    for (at = 0; at < N; at++) x[at] = 1, y[at] = 2;
    for (at = 0; at < N * N; at++) a[at] = 0.5f;
    clGetPlatformIDs(1, &platform, NULL);
    clGetDeviceIDs(platform, CL_DEVICE_TYPE_ALL, 1, &device, NULL);
    context = clCreateContext(NULL, 1, &device, NULL, NULL, NULL);
    queue = clCreateCommandQueue(context, device, 0, NULL);
    cl_mem bx = make(x, N), by = make(y, N), ba = make(a, N * N), bc = make(a, N * N), bd = make(x, 1);
    wrong = CLBlastSaxpy(N, 3, bx, 0, 1, by, 0, 1, &queue, NULL) != CLBlastSuccess;
    wrong |= CLBlastSdot(N, bd, 0, bx, 0, 1, by, 0, 1, &queue, NULL) != CLBlastSuccess;
    wrong |= CLBlastSgemv(CLBlastLayoutRowMajor, CLBlastTransposeNo, N, N, 1, ba, 0, N, bx, 0, 1, 0, by, 0, 1, &queue, NULL) !=
             CLBlastSuccess;
    wrong |= CLBlastSgemm(CLBlastLayoutRowMajor, CLBlastTransposeNo, CLBlastTransposeNo, N, N, N, 1, ba, 0, N, ba, 0, N, 0, bc, 0, N,
                          &queue, NULL) != CLBlastSuccess;
    wrong |= clEnqueueReadBuffer(queue, bd, CL_TRUE, 0, sizeof dot, &dot, 0, NULL, NULL) != CL_SUCCESS;
    wrong |= clEnqueueReadBuffer(queue, by, CL_TRUE, 0, sizeof result, result, 0, NULL, NULL) != CL_SUCCESS;
    wrong |= clEnqueueReadBuffer(queue, bc, CL_TRUE, 0, sizeof square, square, 0, NULL, NULL) != CL_SUCCESS;
    printf("dot %g, y[0] %g, c[0] %g\n", dot, result[0], square[0]);
    return wrong || dot != 5 * N || result[0] != 0.5f * N || square[0] != 0.25f * N;
}
