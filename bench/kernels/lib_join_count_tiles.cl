// Nested-loop join: for each left key the number of equal right keys, right keys by tiles of 64 in local memory.
__kernel __attribute__((reqd_work_group_size(64, 1, 1)))
void join_count_tiles(__global const uint *left, __global const uint *right, __global uint *count, uint nl, uint nr) {
  __local uint tile[64];
  uint lid = (uint)get_local_id(0);
  uint i = (uint)get_global_id(0);
  uint key = (i < nl) ? left[i] : 0u;
  uint hits = 0u;
  for (uint base = 0u; base < nr; base += 64u) {
    uint len = min(nr - base, 64u);
    if (lid < len) tile[lid] = right[base + lid];
    barrier(CLK_LOCAL_MEM_FENCE);
    for (uint j = 0u; j < len; j += 1u) {
      hits += (tile[j] == key) ? 1u : 0u;
    }
    barrier(CLK_LOCAL_MEM_FENCE);
  }
  if (i < nl) count[i] = hits;
}
