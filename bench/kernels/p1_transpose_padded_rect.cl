__kernel __attribute__((reqd_work_group_size(32, 8, 1)))
void p1_transpose_padded_rect(__global const uint *in, __global uint *out,
                              uint ipitch, uint opitch, uint width, uint height) {
  __local uint tile[1056];
  uint lx = get_local_id(0);
  uint ly = get_local_id(1);
  uint bx = get_group_id(0) * 32u;
  uint by = get_group_id(1) * 32u;
  for (uint j = ly; j < 32u; j += 8u) {
    if (bx + lx < width && by + j < height) {
      tile[j * 33u + lx] = in[(by + j) * ipitch + bx + lx];
    }
  }
  barrier(CLK_LOCAL_MEM_FENCE);
  for (uint j = ly; j < 32u; j += 8u) {
    if (by + lx < height && bx + j < width) {
      out[(bx + j) * opitch + by + lx] = tile[lx * 33u + j];
    }
  }
}
