// Inclusive scan of 128 words per work-group, Hillis and Steele with two halves in turn.
__kernel __attribute__((reqd_work_group_size(128, 1, 1)))
void block_scan_pingpong(__global const uint *in, __global uint *out, __global uint *sums, uint n) {
  __local uint buf[256];
  uint lid = (uint)get_local_id(0);
  uint gid = (uint)get_global_id(0);
  uint pin = 0u;
  uint pout = 128u;
  buf[lid] = (gid < n) ? in[gid] : 0u;
  barrier(CLK_LOCAL_MEM_FENCE);
  for (uint d = 1u; d < 128u; d <<= 1) {
    uint v = buf[pin + lid];
    if (lid >= d) v += buf[pin + lid - d];
    buf[pout + lid] = v;
    uint swap = pin;
    pin = pout;
    pout = swap;
    barrier(CLK_LOCAL_MEM_FENCE);
  }
  if (gid < n) out[gid] = buf[pin + lid];
  if (lid == 127u) sums[(uint)get_group_id(0)] = buf[pin + 127u];
}
