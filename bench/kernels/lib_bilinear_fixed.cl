// Resizes a plane by bilinear interpolation with 8 fractional bits; step_x and step_y are source steps in 1/256.
__kernel __attribute__((reqd_work_group_size(16, 4, 1)))
void bilinear_fixed(__global const uint *src, __global uint *dst, uint sw, uint sh, uint dw, uint dh,
                    uint step_x, uint step_y) {
  uint x = (uint)get_global_id(0);
  uint y = (uint)get_global_id(1);
  if (x >= dw || y >= dh) return;
  uint fx = x * step_x;
  uint fy = y * step_y;
  uint x0 = min(fx >> 8, sw - 1u);
  uint y0 = min(fy >> 8, sh - 1u);
  uint x1 = min(x0 + 1u, sw - 1u);
  uint y1 = min(y0 + 1u, sh - 1u);
  uint wx = fx & 255u;
  uint wy = fy & 255u;
  uint top = (src[y0 * sw + x0] & 255u) * (256u - wx) + (src[y0 * sw + x1] & 255u) * wx;
  uint bottom = (src[y1 * sw + x0] & 255u) * (256u - wx) + (src[y1 * sw + x1] & 255u) * wx;
  dst[y * dw + x] = (top * (256u - wy) + bottom * wy + 32768u) >> 16;
}
