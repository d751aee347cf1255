// Place of the greatest magnitude in each block of 256, pairs of value and place reduced together.
__kernel __attribute__((reqd_work_group_size(64, 1, 1)))
void iamax_block(__global const int *x, __global uint *place, uint n) {
  __local uint best[64];
  __local uint where[64];
  uint lid = (uint)get_local_id(0);
  uint first = (uint)get_group_id(0) * 256u;
  uint bv = 0u;
  uint bp = first;
  for (uint i = first + lid; i < min(first + 256u, n); i += 64u) {
    int v = x[i];
    uint m = (v < 0) ? 0u - (uint)v : (uint)v;
    if (m > bv) {
      bv = m;
      bp = i;
    }
  }
  best[lid] = bv;
  where[lid] = bp;
  barrier(CLK_LOCAL_MEM_FENCE);
  for (uint s = 32u; s > 0u; s /= 2u) {
    if (lid < s && best[lid + s] > best[lid]) {
      best[lid] = best[lid + s];
      where[lid] = where[lid + s];
    }
    barrier(CLK_LOCAL_MEM_FENCE);
  }
  if (lid == 0u) place[(uint)get_group_id(0)] = where[0];
}
