__kernel __attribute__((reqd_work_group_size(16, 16, 1)))
void p1_grid_stride_2d(__global const uint *src, __global uint *dst, uint width, uint height) {
  for (uint y = get_global_id(1); y < height; y += get_global_size(1)) {
    for (uint x = get_global_id(0); x < width; x += get_global_size(0)) {
      dst[y * 256u + x] = 255u - (src[y * 256u + x] & 255u);
    }
  }
}
