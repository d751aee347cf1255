__kernel __attribute__((reqd_work_group_size(16, 16, 1)))
void p1_sobel_border(__global const uint *src, __global uint *dst, uint pitch, uint width, uint height) {
  uint x = get_global_id(0);
  uint y = get_global_id(1);
  if (x >= width - 1u || y >= height - 1u) return;
  uint p = y * pitch + x;
  uint gx = src[p + 1u] - src[p - 1u];
  uint gy = src[p + pitch] - src[p - pitch];
  dst[p] = gx * gx + gy * gy;
}
