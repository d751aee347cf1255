__kernel __attribute__((reqd_work_group_size(4, 4, 16)))
void p1_matmul_batched4(__global const uint *a, __global const uint *b, __global uint *d, uint batches) {
  uint c = get_local_id(0);
  uint r = get_local_id(1);
  uint m = get_global_id(2);
  if (m >= batches) return;
  uint base = m * 16u;
  uint acc = 0u;
  for (uint k = 0u; k < 4u; k += 1u) {
    acc += a[base + r * 4u + k] * b[base + k * 4u + c];
  }
  d[base + r * 4u + c] = acc;
}
