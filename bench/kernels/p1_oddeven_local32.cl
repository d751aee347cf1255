__kernel __attribute__((reqd_work_group_size(32, 1, 1)))
void p1_oddeven_local32(__global uint *keys) {
  __local uint t[32];
  uint lid = get_local_id(0);
  uint gid = get_global_id(0);
  t[lid] = keys[gid];
  barrier(CLK_LOCAL_MEM_FENCE);
  for (uint phase = 0u; phase < 32u; phase += 1u) {
    if (lid % 2u == phase % 2u && lid < 31u) {
      uint a = t[lid];
      uint b = t[lid + 1u];
      if (a > b) {
        t[lid] = b;
        t[lid + 1u] = a;
      }
    }
    barrier(CLK_LOCAL_MEM_FENCE);
  }
  keys[gid] = t[lid];
}
