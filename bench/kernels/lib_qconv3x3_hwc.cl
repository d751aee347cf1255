// Quantized 3x3 convolution, one output channel per z, height-width-channel order, zero padding by guards.
__kernel __attribute__((reqd_work_group_size(8, 8, 1)))
void qconv3x3_hwc(__global const uint *src, __global const int *weight, __global int *dst, int w, int h, int ci) {
  int x = (int)get_global_id(0);
  int y = (int)get_global_id(1);
  int co = (int)get_group_id(2);
  if (x >= w || y >= h) return;
  int acc = 0;
  for (int t = 0; t < 9; t += 1) {
    int sx = x + t % 3 - 1;
    int sy = y + t / 3 - 1;
    if (sx < 0 || sx >= w) continue;
    if (sy < 0 || sy >= h) continue;
    int p = (sy * w + sx) * ci;
    int q = (co * 9 + t) * ci;
    for (int k = 0; k < ci; k += 1) {
      acc += (int)(src[p + k] & 255u) * min(max(weight[q + k], -128), 127);
    }
  }
  int co_count = (int)get_num_groups(2);
  dst[(y * w + x) * co_count + co] = min(max((acc + 128) / 256, -128), 127);
}
