// Sum of absolute differences of two signed planes, a row of 64 per work-item, saturated.
__kernel __attribute__((reqd_work_group_size(64, 1, 1)))
void sad_int(__global const int *a, __global const int *b, __global int *sad, uint rows, uint pitch) {
  uint row = (uint)get_global_id(0);
  if (row >= rows) return;
  uint p = row * pitch;
  int acc = 0;
  for (uint x = 0u; x < 64u; x += 1u) {
    int d = max(min(a[p + x], 1000000), -1000000) - b[p + x];
    if (d < 0) d = -d;
    acc = min(acc + min(d, 1000000), 1000000000);
  }
  sad[row] = acc;
}
