__kernel __attribute__((reqd_work_group_size(16, 16, 1)))
void p1_transpose_tiled16(__global const uint *in, __global uint *out, uint ipitch, uint opitch) {
  __local uint tile[256];
  uint lx = get_local_id(0);
  uint ly = get_local_id(1);
  uint bx = get_group_id(0) * 16u;
  uint by = get_group_id(1) * 16u;
  tile[ly * 16u + lx] = in[(by + ly) * ipitch + bx + lx];
  barrier(CLK_LOCAL_MEM_FENCE);
  out[(bx + ly) * opitch + by + lx] = tile[lx * 16u + ly];
}
