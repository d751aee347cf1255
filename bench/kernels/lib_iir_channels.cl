// Second-order recursive filter, a channel per work-item, samples interleaved by channels, state saturated to 16 bits.
__kernel __attribute__((reqd_work_group_size(32, 1, 1)))
void iir_channels(__global const int *x, __global int *y, int b0, int b1, int a1, int a2, uint channels, uint frames) {
  uint ch = (uint)get_global_id(0);
  if (ch >= channels) return;
  int y1 = 0;
  int y2 = 0;
  int x1 = 0;
  uint p = ch;
  for (uint f = 0u; f < frames; f += 1u) {
    int xv = min(max(x[p], -32768), 32767);
    int acc = (b0 * xv + b1 * x1 - a1 * y1 - a2 * y2) / 4096;
    acc = min(max(acc, -32768), 32767);
    y2 = y1;
    y1 = acc;
    x1 = xv;
    y[p] = acc;
    p += channels;
  }
}
