// Keeps the words below a limit of each segment of 16, a segment per work-item, and counts them.
__kernel __attribute__((reqd_work_group_size(64, 1, 1)))
void compact_segment16(__global const uint *in, __global uint *out, __global uint *count, uint n, uint limit) {
  uint id = (uint)get_global_id(0);
  uint first = id * 16u;
  if (first >= n) return;
  uint last = min(first + 16u, n);
  uint kept = 0u;
  for (uint i = first; i < last; i += 1u) {
    uint v = in[i];
    if (v >= limit) continue;
    out[first + kept] = v;
    kept += 1u;
  }
  count[id] = kept;
}
