__kernel __attribute__((reqd_work_group_size(64, 1, 1)))
void p1_moving_average(__global const uint *in, __global uint *out, uint window, uint n) {
  uint i = get_global_id(0);
  if (i >= n) return;
  uint total = 0u;
  for (uint k = 0u; k < window; k += 1u) {
    if (i >= k) {
      total += in[i - k];
    }
  }
  out[i] = total / window;
}
