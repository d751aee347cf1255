// Quantized product of packed int8: four products per word, accumulator clamped, zero points and shift per call.
__kernel __attribute__((reqd_work_group_size(8, 8, 1)))
void qgemm_dot4(__global const uint *a, __global const uint *b, __global int *c, uint kwords, uint m, uint n,
                int za, int zb) {
  uint col = (uint)get_global_id(0);
  uint row = (uint)get_global_id(1);
  if (row >= m || col >= n) return;
  int acc = 0;
  uint pa = row * kwords;
  uint pb = col * kwords;
  for (uint k = 0u; k < kwords; k += 1u) {
    uint wa = a[pa + k];
    uint wb = b[pb + k];
    int s = ((int)(wa & 255u) - za) * ((int)(wb & 255u) - zb);
    s += ((int)((wa >> 8) & 255u) - za) * ((int)((wb >> 8) & 255u) - zb);
    s += ((int)((wa >> 16) & 255u) - za) * ((int)((wb >> 16) & 255u) - zb);
    s += ((int)(wa >> 24) - za) * ((int)(wb >> 24) - zb);
    acc = min(max(acc + s, -16777216), 16777216);
  }
  c[row * n + col] = acc;
}
