// Stable split of 64 keys of a block by one bit: ranks from a scan of the flags, keys moved in local memory.
__kernel __attribute__((reqd_work_group_size(64, 1, 1)))
void radix_split_bit(__global uint *keys) {
  __local uint k[64];
  __local uint s[128];
  uint lid = (uint)get_local_id(0);
  uint gid = (uint)get_global_id(0);
  uint key = keys[gid];
  uint zero = 1u - (key & 1u);
  s[lid] = zero;
  uint from = 0u;
  barrier(CLK_LOCAL_MEM_FENCE);
  for (uint d = 1u; d < 64u; d <<= 1) {
    uint v = s[from + lid];
    if (lid >= d) v += s[from + lid - d];
    from ^= 64u;
    s[from + lid] = v;
    barrier(CLK_LOCAL_MEM_FENCE);
  }
  uint before = s[from + lid] - zero;
  uint zeros = s[from + 63u];
  uint rank = (zero != 0u) ? before : zeros + lid - before;
  k[rank & 63u] = key;
  barrier(CLK_LOCAL_MEM_FENCE);
  keys[gid] = k[lid];
}
