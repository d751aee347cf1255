__kernel __attribute__((reqd_work_group_size(64, 1, 1)))
void p1_adjacent_difference(__global const uint *a, __global uint *out, uint n) {
  uint i = get_global_id(0);
  if (i > n) return;
  uint left = 0u;
  if (i > 0u) {
    left = a[i - 1u];
  }
  out[i] = a[i] - left;
}
