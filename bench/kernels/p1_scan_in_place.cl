__kernel __attribute__((reqd_work_group_size(64, 1, 1)))
void p1_scan_in_place(__global const uint *in, __global uint *out) {
  __local uint t[64];
  uint lid = get_local_id(0);
  uint gid = get_global_id(0);
  t[lid] = in[gid];
  barrier(CLK_LOCAL_MEM_FENCE);
  for (uint d = 1u; d < 64u; d *= 2u) {
    if (lid >= d) {
      t[lid] += t[lid - d];
    }
    barrier(CLK_LOCAL_MEM_FENCE);
  }
  out[gid] = t[lid];
}
