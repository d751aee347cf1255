// Halves a plane: the mean of 2x2 pixels, the last column doubled where the width is odd.
__kernel __attribute__((reqd_work_group_size(16, 4, 1)))
void pyrdown_2x(__global const uint *src, __global uint *dst, uint sw, uint sh, uint sp, uint dp) {
  uint x = (uint)get_global_id(0);
  uint y = (uint)get_global_id(1);
  uint dw = (sw + 1u) / 2u;
  uint dh = (sh + 1u) / 2u;
  if (x >= dw || y >= dh) return;
  uint xa = x * 2u;
  uint ya = y * 2u;
  uint xb = min(xa + 1u, sw - 1u);
  uint yb = ya + 1u;
  uint s = (src[ya * sp + xa] & 255u) + (src[ya * sp + xb] & 255u);
  s += (src[yb * sp + xa] & 255u) + (src[yb * sp + xb] & 255u);
  dst[y * dp + x] = (s + 2u) >> 2;
}
