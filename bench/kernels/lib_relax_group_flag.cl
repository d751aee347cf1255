// Relaxes 64 cells of a group until none changes, two planes in turn; item 0 gathers the flags into one.
__kernel __attribute__((reqd_work_group_size(64, 1, 1)))
void relax_group_flag(__global const uint *init, __global uint *out, uint max_turns) {
  __local uint cell[132];
  __local uint moved[64];
  __local uint any_moved[1];
  uint lid = (uint)get_local_id(0);
  uint base = (uint)get_group_id(0) * 64u;
  uint cur = 0u;
  cell[lid + 1u] = init[base + lid];
  if (lid == 0u) {
    cell[0] = 0u;
    cell[65] = 0u;
    cell[66] = 0u;
    cell[131] = 0u;
  }
  barrier(CLK_LOCAL_MEM_FENCE);
  for (uint turn = 0u; turn < max_turns; turn += 1u) {
    uint nxt = 66u - cur;
    uint old = cell[cur + lid + 1u];
    uint v = max(old, max(cell[cur + lid], cell[cur + lid + 2u]));
    cell[nxt + lid + 1u] = v;
    moved[lid] = (v != old) ? 1u : 0u;
    barrier(CLK_LOCAL_MEM_FENCE);
    if (lid == 0u) {
      uint m = 0u;
      for (uint j = 0u; j < 64u; j += 1u) m |= moved[j];
      any_moved[0] = m;
    }
    cur = nxt;
    barrier(CLK_LOCAL_MEM_FENCE);
    if (any_moved[0] == 0u) break;
  }
  out[base + lid] = cell[cur + lid + 1u];
}
