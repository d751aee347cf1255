__kernel __attribute__((reqd_work_group_size(64, 1, 1)))
void p1_hist_bin_owner(__global const uint *in, __global uint *hist, uint len) {
  __local uint tile[64];
  uint lid = get_local_id(0);
  uint first = get_group_id(0) * 512u;
  uint count = 0u;
  for (uint base = 0u; base < len; base += 64u) {
    uint i = base + lid;
    tile[lid] = i < len ? in[first + i] & 63u : 64u;
    barrier(CLK_LOCAL_MEM_FENCE);
    for (uint k = 0u; k < 64u; k += 1u) {
      if (tile[k] == lid) count += 1u;
    }
    barrier(CLK_LOCAL_MEM_FENCE);
  }
  hist[get_group_id(0) * 64u + lid] = count;
}
