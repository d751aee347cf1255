"""A program over PyOpenCL, as one would write it without the layer: arrays, an elementwise kernel, a reduction, a kernel of its own."""
import numpy
import pyopencl
import pyopencl.array
from pyopencl.elementwise import ElementwiseKernel
from pyopencl.reduction import ReductionKernel

SOURCE = """
__kernel void smooth(__global const float *from, __global float *to, int n) {
  int i = get_global_id(0);
  if (i > 0 && i < n - 1) to[i] = (from[i - 1] + from[i] + from[i + 1]) / 3.0f;
}
__kernel void transpose(__global const float *from, __global float *to, int width, int height) {
  __local float tile[16][17];
  int x = get_global_id(0), y = get_global_id(1), lx = get_local_id(0), ly = get_local_id(1);
  if (x < width && y < height) tile[ly][lx] = from[y * width + x];
  barrier(CLK_LOCAL_MEM_FENCE);
  x = get_group_id(1) * 16 + lx;
  y = get_group_id(0) * 16 + ly;
  if (x < height && y < width) to[y * height + x] = tile[lx][ly];
}
"""


def main():
    context = pyopencl.Context([pyopencl.get_platforms()[0].get_devices()[0]])
    queue = pyopencl.CommandQueue(context)
    n = 1000
    host = numpy.arange(n, dtype=numpy.float32)
    x = pyopencl.array.to_device(queue, host)
    y = pyopencl.array.zeros(queue, n, numpy.float32)
    ElementwiseKernel(context, "float *y, const float *x, float a", "y[i] = a * x[i] + 1", "axpb")(y, x, numpy.float32(2))
    y += x
    total = ReductionKernel(context, numpy.float32, "0", "a+b", "x[i]", "__global const float *x")(x, queue=queue).get()
    program = pyopencl.Program(context, SOURCE).build()
    z = pyopencl.array.zeros(queue, n, numpy.float32)
    smooth = pyopencl.Kernel(program, "smooth")
    for _ in range(10):
        smooth(queue, (1024,), (64,), x.data, z.data, numpy.int32(n))
    matrix = numpy.random.rand(40, 50).astype(numpy.float32)
    a, b = pyopencl.array.to_device(queue, matrix), pyopencl.array.zeros(queue, (50, 40), numpy.float32)
    pyopencl.Kernel(program, "transpose")(queue, (64, 48), (16, 16), a.data, b.data, numpy.int32(50), numpy.int32(40))
    assert numpy.allclose(y.get(), 3 * host + 1)
    assert numpy.allclose(z.get()[1:-1], host[1:-1])
    assert (b.get() == matrix.T).all()
    assert abs(total - host.sum()) < 1
    print("all results are right")


main()
