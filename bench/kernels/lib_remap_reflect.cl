// 1D blur (1 4 6 4 1) / 16 of rows with the border reflected, indexes folded back without loops.
__kernel __attribute__((reqd_work_group_size(32, 2, 1)))
void remap_reflect(__global const uint *src, __global uint *dst, int w, int h) {
  int x = (int)get_global_id(0);
  int y = (int)get_global_id(1);
  if (x >= w) return;
  if (y >= h) return;
  int l2 = x - 2;
  int l1 = x - 1;
  int r1 = x + 1;
  int r2 = x + 2;
  if (l2 < 0) l2 = -l2;
  if (l1 < 0) l1 = -l1;
  if (r1 >= w) r1 = 2 * w - 2 - r1;
  if (r2 >= w) r2 = 2 * w - 2 - r2;
  int p = y * w;
  uint s = src[p + l2] + 4u * src[p + l1] + 6u * src[p + x] + 4u * src[p + r1] + src[p + r2];
  dst[p + x] = s / 16u;
}
