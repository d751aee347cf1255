// Nearest-neighbour affine warp, coefficients in 1/1024; outside the source a fill value is stored.
__kernel __attribute__((reqd_work_group_size(8, 8, 1)))
void warp_affine_fixed(__global const uint *src, __global uint *dst, int w, int h,
                       int a, int b, int c, int d, int e, int f, uint fill) {
  int x = (int)get_global_id(0);
  int y = (int)get_global_id(1);
  if (x >= w || y >= h) return;
  int sx = (a * x + b * y + c + 512) / 1024;
  int sy = (d * x + e * y + f + 512) / 1024;
  uint v = fill;
  if (sx >= 0 && sx < w && sy >= 0 && sy < h) {
    v = src[sy * w + sx];
  }
  dst[y * w + x] = v;
}
