__kernel __attribute__((reqd_work_group_size(64, 1, 1)))
void p1_merge_runs_item(__global const uint *in, __global uint *out) {
  uint base = get_global_id(0) * 16u;
  uint ia = 0u;
  uint ib = 0u;
  for (uint k = 0u; k < 16u; k += 1u) {
    uint first = 0u;
    if (ib >= 8u) {
      first = 1u;
    } else if (ia < 8u) {
      if (in[base + ia] <= in[base + 8u + ib]) first = 1u;
    }
    if (first == 1u) {
      out[base + k] = in[base + ia];
      ia += 1u;
    } else {
      out[base + k] = in[base + 8u + ib];
      ib += 1u;
    }
  }
}
