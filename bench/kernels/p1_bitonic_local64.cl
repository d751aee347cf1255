__kernel __attribute__((reqd_work_group_size(64, 1, 1)))
void p1_bitonic_local64(__global uint *keys) {
  __local uint t[64];
  uint lid = get_local_id(0);
  uint gid = get_global_id(0);
  t[lid] = keys[gid];
  for (uint k = 2u; k <= 64u; k *= 2u) {
    barrier(CLK_LOCAL_MEM_FENCE);
    for (uint j = k / 2u; j > 0u; j /= 2u) {
      uint p = lid ^ j;
      if (p > lid) {
        uint a = t[lid];
        uint b = t[p];
        if ((lid & k) == 0u ? a > b : a < b) {
          t[lid] = b;
          t[p] = a;
        }
      }
      barrier(CLK_LOCAL_MEM_FENCE);
    }
  }
  keys[gid] = t[lid];
}
