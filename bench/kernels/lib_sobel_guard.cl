// Gradient magnitude |gx| + |gy| of 8-bit values in words; the outermost ring is set to zero.
__kernel __attribute__((reqd_work_group_size(16, 4, 1)))
void sobel_guard(__global const uint *src, __global uint *dst, int w, int h) {
  int x = (int)get_global_id(0);
  int y = (int)get_global_id(1);
  if (x >= w || y >= h) return;
  int p = y * w + x;
  if (x == 0 || y == 0 || x == w - 1 || y == h - 1) {
    dst[p] = 0u;
    return;
  }
  int a = (int)(src[p - w - 1] & 255u);
  int b = (int)(src[p - w] & 255u);
  int c = (int)(src[p - w + 1] & 255u);
  int d = (int)(src[p - 1] & 255u);
  int f = (int)(src[p + 1] & 255u);
  int g = (int)(src[p + w - 1] & 255u);
  int i = (int)(src[p + w] & 255u);
  int j = (int)(src[p + w + 1] & 255u);
  int gx = c + 2 * f + j - a - 2 * d - g;
  int gy = g + 2 * i + j - a - 2 * b - c;
  int mag = max(gx, -gx) + max(gy, -gy);
  dst[p] = (uint)min(mag, 255);
}
