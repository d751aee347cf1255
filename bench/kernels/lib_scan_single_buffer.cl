// Inclusive scan of 64 words in one buffer, one barrier each turn.
__kernel __attribute__((reqd_work_group_size(64, 1, 1)))
void scan_single_buffer(__global const uint *in, __global uint *out) {
  __local uint s[64];
  uint lid = (uint)get_local_id(0);
  uint gid = (uint)get_global_id(0);
  s[lid] = in[gid];
  barrier(CLK_LOCAL_MEM_FENCE);
  for (uint d = 1u; d < 64u; d <<= 1) {
    if (lid >= d) {
      s[lid] += s[lid - d];
    }
    barrier(CLK_LOCAL_MEM_FENCE);
  }
  out[gid] = s[lid];
}
