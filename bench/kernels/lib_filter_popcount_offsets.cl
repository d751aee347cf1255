// Bits set before each word of a selection bitmap, by popcount and a scan of 64 words; the block's total is stored too.
__kernel __attribute__((reqd_work_group_size(64, 1, 1)))
void filter_popcount_offsets(__global const uint *bitmap, __global uint *before, __global uint *total, uint words) {
  __local uint s[64];
  uint lid = (uint)get_local_id(0);
  uint gid = (uint)get_global_id(0);
  uint v = 0u;
  if (gid < words) v = bitmap[gid];
  v = v - ((v >> 1) & 0x55555555u);
  v = (v & 0x33333333u) + ((v >> 2) & 0x33333333u);
  v = (v + (v >> 4)) & 0x0f0f0f0fu;
  v = v * 0x01010101u >> 24;
  s[lid] = v;
  barrier(CLK_LOCAL_MEM_FENCE);
  for (uint d = 1u; d < 64u; d *= 2u) {
    uint other = 0u;
    if (lid >= d) other = s[lid - d];
    barrier(CLK_LOCAL_MEM_FENCE);
    s[lid] += other;
    barrier(CLK_LOCAL_MEM_FENCE);
  }
  if (gid < words) before[gid] = s[lid] - v;
  if (lid == 63u) total[(uint)get_group_id(0)] = s[63];
}
