// One step of reachability: row bits of a 1024-column bit matrix or-ed over the frontier, a word column per work-item.
__kernel __attribute__((reqd_work_group_size(32, 1, 1)))
void bitmatrix_reach(__global const uint *adj, __global const uint *frontier, __global uint *next, uint rows) {
  uint w = (uint)get_local_id(0);
  uint part = (uint)get_group_id(0);
  uint lo = part * 64u;
  uint hi = min(lo + 64u, rows);
  uint acc = 0u;
  for (uint r = lo; r < hi; r += 1u) {
    uint bit = frontier[r >> 5];
    uint m = bit >> 16;
    if ((r & 16u) == 0u) m = bit & 0xffffu;
    if ((r & 8u) != 0u) m >>= 8;
    if ((r & 4u) != 0u) m >>= 4;
    if ((r & 2u) != 0u) m >>= 2;
    if ((r & 1u) != 0u) m >>= 1;
    if ((m & 1u) != 0u) acc |= adj[r * 32u + w];
  }
  next[part * 32u + w] = acc;
}
