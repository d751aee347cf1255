// Marks the first key of each run and the number of keys before it inside its block of 64.
__kernel __attribute__((reqd_work_group_size(64, 1, 1)))
void segmented_head_flags(__global const uint *keys, __global uint *head, __global uint *offset, uint n) {
  __local uint ks[65];
  uint lid = (uint)get_local_id(0);
  uint gid = (uint)get_global_id(0);
  ks[lid + 1u] = keys[min(gid, n - 1u)];
  if (lid == 0u) {
    ks[0] = (gid == 0u) ? ~keys[0] : keys[min(gid - 1u, n - 1u)];
  }
  barrier(CLK_LOCAL_MEM_FENCE);
  if (gid >= n) return;
  uint j = lid;
  while (j > 0u && ks[j] == ks[j + 1u]) {
    j -= 1u;
  }
  head[gid] = (ks[lid] != ks[lid + 1u]) ? 1u : 0u;
  offset[gid] = lid - j;
}
