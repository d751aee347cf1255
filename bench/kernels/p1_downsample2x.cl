__kernel __attribute__((reqd_work_group_size(16, 8, 1)))
void p1_downsample2x(__global const uint *src, __global uint *dst, uint pitch, uint opitch, uint ow, uint oh) {
  uint x = get_global_id(0);
  uint y = get_global_id(1);
  if (x < ow && y < oh) {
    uint p = y * 2u * pitch + x * 2u;
    uint four = src[p] + src[p + 1u] + src[p + pitch] + src[p + pitch + 1u];
    dst[y * opitch + x] = (four + 2u) / 4u;
  }
}
