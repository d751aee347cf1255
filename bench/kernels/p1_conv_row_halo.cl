__kernel __attribute__((reqd_work_group_size(128, 1, 1)))
void p1_conv_row_halo(__global const uint *src, __global const uint *coef, __global uint *dst,
                      uint pitch, uint width, uint height) {
  __local uint row[136];
  uint lid = get_local_id(0);
  uint x = get_global_id(0);
  uint y = get_group_id(1);
  uint left = get_group_id(0) * 128u;
  for (uint k = lid; k < 136u; k += 128u) {
    uint sx = left + k;
    uint v = 0u;
    if (y < height && sx >= 4u && sx < width + 4u) {
      v = src[y * pitch + sx - 4u];
    }
    row[k] = v;
  }
  barrier(CLK_LOCAL_MEM_FENCE);
  if (x >= width || y >= height) return;
  uint acc = 0u;
  for (uint t = 0u; t < 9u; t += 1u) {
    acc += coef[t] * row[lid + t];
  }
  dst[y * pitch + x] = acc >> 8;
}
