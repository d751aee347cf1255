// Decimation by a factor with a window of taps, output per work-item, input clamped to its last sample.
__kernel __attribute__((reqd_work_group_size(64, 1, 1)))
void decimate_poly(__global const uint *x, __global const uint *h, __global uint *y, uint n_in, uint n_out, uint factor,
                   uint taps) {
  uint i = (uint)get_global_id(0);
  if (i >= n_out) return;
  uint start = i * factor;
  uint acc = 0u;
  uint t = taps;
  while (t > 0u) {
    t -= 1u;
    acc += h[t] * (x[min(start + t, n_in - 1u)] & 0xffffu);
  }
  y[i] = acc >> 8;
}
