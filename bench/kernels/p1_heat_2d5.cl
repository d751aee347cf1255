__kernel __attribute__((reqd_work_group_size(16, 8, 1)))
void p1_heat_2d5(__global const uint *in, __global uint *out, uint width, uint height) {
  uint x = get_global_id(0) + 1u;
  uint y = get_global_id(1) + 1u;
  if (x < width - 1u && y < height - 1u) {
    uint p = y * 512u + x;
    uint c = in[p];
    uint near = in[p - 1u] + in[p + 1u] + in[p - 512u] + in[p + 512u];
    out[p] = c + (near - 4u * c) / 8u;
  }
}
