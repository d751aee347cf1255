/* Two kernels in one file; the host says by an option how far the first one reaches. */
#ifndef REACH
#define REACH 1
#endif
__kernel void smooth_rows(__global const int *in, __global int *out, uint n) {
  uint i = get_global_id(0);
  int sum = 0;
  if (i >= REACH && i + REACH < n) {
    for (uint k = 0; k <= 2 * REACH; k++)
      sum += in[i + k - REACH] & 0xff;
    out[i] = sum / (2 * REACH + 1);
  }
}
__kernel void negate_all(__global int *out, uint n) {
  uint i = get_global_id(0);
  if (i < n)
    out[i] = ~out[i];
}
