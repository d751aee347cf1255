// Exclusive scan of 128 words by 64 work-items, up and down sweep, one word of padding each 16.
__kernel __attribute__((reqd_work_group_size(64, 1, 1)))
void block_scan_blelloch_pad(__global uint *data, __global uint *sums) {
  __local uint t[136];
  uint lid = (uint)get_local_id(0);
  uint base = (uint)get_group_id(0) * 128u;
  uint ai = lid;
  uint bi = lid + 64u;
  t[ai + (ai >> 4)] = data[base + ai];
  t[bi + (bi >> 4)] = data[base + bi];
  uint offset = 1u;
  for (uint d = 64u; d > 0u; d >>= 1) {
    barrier(CLK_LOCAL_MEM_FENCE);
    if (lid < d) {
      uint i = offset * (2u * lid + 1u) - 1u;
      uint j = offset * (2u * lid + 2u) - 1u;
      t[j + (j >> 4)] += t[i + (i >> 4)];
    }
    offset <<= 1;
  }
  if (lid == 0u) {
    sums[(uint)get_group_id(0)] = t[127u + (127u >> 4)];
    t[127u + (127u >> 4)] = 0u;
  }
  for (uint d = 1u; d < 128u; d <<= 1) {
    offset >>= 1;
    barrier(CLK_LOCAL_MEM_FENCE);
    if (lid < d) {
      uint i = offset * (2u * lid + 1u) - 1u;
      uint j = offset * (2u * lid + 2u) - 1u;
      uint s = t[i + (i >> 4)];
      t[i + (i >> 4)] = t[j + (j >> 4)];
      t[j + (j >> 4)] += s;
    }
  }
  barrier(CLK_LOCAL_MEM_FENCE);
  data[base + ai] = t[ai + (ai >> 4)];
  data[base + bi] = t[bi + (bi >> 4)];
}
