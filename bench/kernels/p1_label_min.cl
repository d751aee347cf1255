__kernel __attribute__((reqd_work_group_size(64, 1, 1)))
void p1_label_min(__global const uint *adj, __global const uint *deg, __global const uint *label,
                  __global uint *out, __global uint *changed, uint nodes) {
  uint v = get_global_id(0);
  if (v >= nodes) return;
  uint best = label[v];
  uint m = min(deg[v], 8u);
  for (uint k = 0u; k < m; k += 1u) {
    uint u = adj[k * 8192u + v];
    if (u < nodes) {
      best = min(best, label[u]);
    }
  }
  out[v] = best;
  changed[v] = best != label[v] ? 1u : 0u;
}
