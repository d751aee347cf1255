__kernel __attribute__((reqd_work_group_size(16, 16, 1))) void matmul(__global const uint *a, __global const uint *b, __global uint *c) {
  uint x = get_global_id(0);
  uint y = get_global_id(1);
  uint sum = 0u;
  for (uint k = 0u; k < 256u; k += 1u) {
    sum = sum + a[y * 256u + k] * b[k * 256u + x];
  }
  c[y * 256u + x] = sum;
}
