__kernel __attribute__((reqd_work_group_size(64, 1, 1)))
void p1_scan_rows_carry(__global const uint *in, __global uint *out, uint n) {
  __local uint t[64];
  uint lid = get_local_id(0);
  uint row = get_group_id(0) * 1024u;
  uint carry = 0u;
  for (uint base = 0u; base < n; base += 64u) {
    uint i = base + lid;
    t[lid] = i < n ? in[row + i] : 0u;
    barrier(CLK_LOCAL_MEM_FENCE);
    for (uint d = 1u; d < 64u; d *= 2u) {
      uint v = 0u;
      if (lid >= d) {
        v = t[lid - d];
      }
      barrier(CLK_LOCAL_MEM_FENCE);
      t[lid] += v;
      barrier(CLK_LOCAL_MEM_FENCE);
    }
    if (i < n) {
      out[row + i] = carry + t[lid];
    }
    carry += t[63];
    barrier(CLK_LOCAL_MEM_FENCE);
  }
}
