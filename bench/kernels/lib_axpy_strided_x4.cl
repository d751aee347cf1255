// y := alpha * x + y, four elements per work-item, the unrolled grid stride of a BLAS level 1 kernel.
__kernel __attribute__((reqd_work_group_size(64, 1, 1)))
void axpy_strided_x4(__global const uint *x, __global uint *y, uint alpha, uint n) {
  uint i = (uint)get_global_id(0);
  uint stride = (uint)get_global_size(0);
  if (i < n) y[i] = y[i] + alpha * x[i];
  i += stride;
  if (i < n) y[i] = y[i] + alpha * x[i];
  i += stride;
  if (i < n) y[i] = y[i] + alpha * x[i];
  i += stride;
  if (i < n) y[i] = y[i] + alpha * x[i];
}
