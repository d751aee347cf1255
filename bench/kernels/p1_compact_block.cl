__kernel __attribute__((reqd_work_group_size(64, 1, 1)))
void p1_compact_block(__global const uint *in, __global uint *out, __global uint *counts, uint level) {
  __local uint t[64];
  uint lid = get_local_id(0);
  uint gid = get_global_id(0);
  uint v = in[gid];
  uint keep = v >= level ? 1u : 0u;
  t[lid] = keep;
  barrier(CLK_LOCAL_MEM_FENCE);
  for (uint d = 1u; d < 64u; d *= 2u) {
    uint add = 0u;
    if (lid >= d) {
      add = t[lid - d];
    }
    barrier(CLK_LOCAL_MEM_FENCE);
    t[lid] += add;
    barrier(CLK_LOCAL_MEM_FENCE);
  }
  if (keep == 1u) {
    out[get_group_id(0) * 64u + t[lid] - 1u] = v;
  }
  if (lid == 63u) {
    counts[get_group_id(0)] = t[63];
  }
}
