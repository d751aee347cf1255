// c[i] := a[i] * b[i] for 4x4 matrices of 16 words each; a matrix per work-item, columns unrolled by hand.
__kernel __attribute__((reqd_work_group_size(64, 1, 1)))
void batched_mat4(__global const uint *a, __global const uint *b, __global uint *c, uint batch) {
  uint id = (uint)get_global_id(0);
  if (id >= batch) return;
  uint o = id * 16u;
  for (uint r = 0u; r < 4u; r += 1u) {
    uint a0 = a[o + r * 4u];
    uint a1 = a[o + r * 4u + 1u];
    uint a2 = a[o + r * 4u + 2u];
    uint a3 = a[o + r * 4u + 3u];
    c[o + r * 4u] = a0 * b[o] + a1 * b[o + 4u] + a2 * b[o + 8u] + a3 * b[o + 12u];
    c[o + r * 4u + 1u] = a0 * b[o + 1u] + a1 * b[o + 5u] + a2 * b[o + 9u] + a3 * b[o + 13u];
    c[o + r * 4u + 2u] = a0 * b[o + 2u] + a1 * b[o + 6u] + a2 * b[o + 10u] + a3 * b[o + 14u];
    c[o + r * 4u + 3u] = a0 * b[o + 3u] + a1 * b[o + 7u] + a2 * b[o + 11u] + a3 * b[o + 15u];
  }
}
