// COO entries sorted or not: each work-item owns a row of a block of 64 rows and scans the block's entries by tiles.
__kernel __attribute__((reqd_work_group_size(64, 1, 1)))
void coo_segment_sum(__global const uint *rowidx, __global const uint *vals, __global uint *y, uint per_block) {
  __local uint r[64];
  __local uint v[64];
  uint lid = (uint)get_local_id(0);
  uint gid = (uint)get_global_id(0);
  uint first = (uint)get_group_id(0) * per_block;
  uint acc = 0u;
  for (uint base = 0u; base < per_block; base += 64u) {
    uint k = min(base + lid, per_block - 1u);
    r[lid] = rowidx[first + k];
    v[lid] = (base + lid < per_block) ? vals[first + k] : 0u;
    barrier(CLK_LOCAL_MEM_FENCE);
    for (uint j = 0u; j < 64u; j += 1u) {
      if (r[j] == gid) acc += v[j];
    }
    barrier(CLK_LOCAL_MEM_FENCE);
  }
  y[gid] = acc;
}
