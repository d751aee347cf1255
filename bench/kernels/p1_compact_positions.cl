__kernel __attribute__((reqd_work_group_size(64, 1, 1)))
void p1_compact_positions(__global const uint *in, __global const uint *flag, __global const uint *pos,
                          __global uint *out, uint n) {
  uint i = get_global_id(0);
  if (i >= n) return;
  if (flag[i] != 0u) {
    uint p = pos[i];
    if (p < n) {
      out[p] = in[i];
    }
  }
}
