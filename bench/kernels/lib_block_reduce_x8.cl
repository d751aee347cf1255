// Sum of 512 words per work-group: eight per work-item, then an unrolled tree over 64 partial sums.
__kernel __attribute__((reqd_work_group_size(64, 1, 1)))
void block_reduce_x8(__global const uint *in, __global uint *out, uint n) {
  __local uint sm[64];
  uint lid = (uint)get_local_id(0);
  uint i = (uint)get_group_id(0) * 512u + lid;
  uint acc = 0u;
  uint left = 8u;
  while (left > 0u) {
    if (i >= n) break;
    acc += in[i];
    i += 64u;
    left -= 1u;
  }
  sm[lid] = acc;
  barrier(CLK_LOCAL_MEM_FENCE);
  if (lid < 32u) sm[lid] += sm[lid + 32u];
  barrier(CLK_LOCAL_MEM_FENCE);
  if (lid < 16u) sm[lid] += sm[lid + 16u];
  barrier(CLK_LOCAL_MEM_FENCE);
  if (lid < 8u) sm[lid] += sm[lid + 8u];
  barrier(CLK_LOCAL_MEM_FENCE);
  if (lid < 4u) sm[lid] += sm[lid + 4u];
  barrier(CLK_LOCAL_MEM_FENCE);
  if (lid < 2u) sm[lid] += sm[lid + 2u];
  barrier(CLK_LOCAL_MEM_FENCE);
  if (lid == 0u) out[(uint)get_group_id(0)] = sm[0] + sm[1];
}
