// Counts of 16 digits per block of 1024 keys: each work-item counts 16 keys in a column of its own.
__kernel __attribute__((reqd_work_group_size(64, 1, 1)))
void radix_digit_count(__global const uint *keys, __global uint *counts, uint n, uint pass) {
  __local uint cnt[1024];
  uint lid = (uint)get_local_id(0);
  uint grp = (uint)get_group_id(0);
  for (uint d = 0u; d < 16u; d += 1u) {
    cnt[d * 64u + lid] = 0u;
  }
  uint first = grp * 1024u;
  uint last = min(first + 1024u, n);
  for (uint i = first + lid; i < last; i += 64u) {
    uint key = keys[i];
    if ((pass & 1u) != 0u) key >>= 4;
    if ((pass & 2u) != 0u) key >>= 8;
    if ((pass & 4u) != 0u) key >>= 16;
    uint digit = key & 15u;
    cnt[digit * 64u + lid] += 1u;
  }
  barrier(CLK_LOCAL_MEM_FENCE);
  if (lid < 16u) {
    uint sum = 0u;
    for (uint j = 0u; j < 64u; j += 1u) {
      sum += cnt[lid * 64u + j];
    }
    counts[lid * (uint)get_num_groups(0) + grp] = sum;
  }
}
