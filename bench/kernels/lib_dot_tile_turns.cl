// Products of two vectors, tiles of 64 summed by a tree inside the grid-strided loop.
__kernel __attribute__((reqd_work_group_size(64, 1, 1)))
void dot_tile_turns(__global const uint *x, __global const uint *y, __global uint *sums, uint n) {
  __local uint t[64];
  uint lid = (uint)get_local_id(0);
  uint total = 0u;
  for (uint i = (uint)get_global_id(0); i < n; i += (uint)get_global_size(0)) {
    t[lid] = x[i] * y[i];
    barrier(CLK_LOCAL_MEM_FENCE);
    if (lid == 0u) {
      total += t[0] + t[16] + t[32] + t[48];
    }
    barrier(CLK_LOCAL_MEM_FENCE);
  }
  if (lid == 0u) sums[(uint)get_group_id(0)] = total;
}
