// Horizontal dilation by a small radius on strips of 128 pixels; the strip and its halo lie in local memory.
__kernel __attribute__((reqd_work_group_size(128, 1, 1)))
void dilate_rows_local(__global const uint *src, __global uint *dst, int width, int radius) {
  __local uint strip[144];
  int lid = (int)get_local_id(0);
  int x = (int)get_global_id(0);
  int row = (int)get_global_id(1) * width;
  strip[lid + 8] = src[row + min(x, width - 1)];
  if (lid < 8) {
    strip[lid] = src[row + min(max(x - 8, 0), width - 1)];
    strip[lid + 136] = src[row + min(x + 128, width - 1)];
  }
  barrier(CLK_LOCAL_MEM_FENCE);
  if (x < width) {
    uint m = 0u;
    for (int d = -radius; d <= radius; d += 1) {
      m = max(m, strip[lid + 8 + d]);
    }
    dst[row + x] = m;
  }
}
