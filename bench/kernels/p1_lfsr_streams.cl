__kernel __attribute__((reqd_work_group_size(64, 1, 1)))
void p1_lfsr_streams(__global uint *state, __global uint *out, uint count, uint streams) {
  uint i = get_global_id(0);
  if (i >= streams) return;
  uint s = state[i] | 1u;
  for (uint k = 0u; k < count; k += 1u) {
    s = (s >> 1) ^ ((0u - (s & 1u)) & 0xb4bcd35cu);
    out[i * 64u + k] = s & 255u;
  }
  state[i] = s;
}
