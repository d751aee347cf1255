// Median of three neighbours in a column, a sorting network of min and max, eight rows per work-item.
__kernel __attribute__((reqd_work_group_size(64, 1, 1)))
void median3_columns(__global const uint *src, __global uint *dst, uint width, uint strips) {
  uint x = (uint)get_global_id(0);
  uint strip = (uint)get_global_id(1);
  if (x >= width || strip >= strips) return;
  uint last = strips * 8u - 1u;
  uint y = strip * 8u;
  uint above = src[((y > 0u) ? y - 1u : 0u) * width + x];
  uint here = src[y * width + x];
  for (uint k = 0u; k < 8u; k += 1u) {
    uint below = src[min(y + 1u, last) * width + x];
    uint lo = min(above, here);
    uint hi = max(above, here);
    dst[y * width + x] = max(lo, min(hi, below));
    above = here;
    here = below;
    y += 1u;
  }
}
