__kernel __attribute__((reqd_work_group_size(64, 1, 1)))
void p1_bfs_pull(__global const uint *adj, __global const uint *level, __global uint *next, uint nodes, uint cur) {
  uint v = get_global_id(0);
  if (v >= nodes) return;
  uint d = level[v];
  if (d == 0xffffffffu) {
    for (uint k = 0u; k < 16u; k += 1u) {
      uint u = adj[v * 16u + k];
      if (u >= nodes) break;
      if (level[u] == cur) {
        d = cur + 1u;
        break;
      }
    }
  }
  next[v] = d;
}
