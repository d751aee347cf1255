__kernel __attribute__((reqd_work_group_size(128, 1, 1)))
void p1_scan_hillis_double(__global const uint *in, __global uint *out) {
  __local uint t[256];
  uint lid = get_local_id(0);
  uint gid = get_global_id(0);
  uint cur = 0u;
  t[lid] = in[gid];
  barrier(CLK_LOCAL_MEM_FENCE);
  for (uint d = 1u; d < 128u; d *= 2u) {
    uint nxt = 128u - cur;
    uint v = t[cur + lid];
    if (lid >= d) {
      v += t[cur + lid - d];
    }
    t[nxt + lid] = v;
    cur = nxt;
    barrier(CLK_LOCAL_MEM_FENCE);
  }
  out[gid] = t[cur + lid];
}
