__kernel __attribute__((reqd_work_group_size(16, 16, 1)))
void p1_matmul_tiled16(__global const uint *a, __global const uint *b, __global uint *c,
                       uint lda, uint ldb, uint ldc, uint tiles) {
  __local uint ta[256];
  __local uint tb[256];
  uint lx = get_local_id(0);
  uint ly = get_local_id(1);
  uint col = get_global_id(0);
  uint row = get_global_id(1);
  uint acc = 0u;
  for (uint t = 0u; t < tiles; t += 1u) {
    ta[ly * 16u + lx] = a[row * lda + t * 16u + lx];
    tb[ly * 16u + lx] = b[(t * 16u + ly) * ldb + col];
    barrier(CLK_LOCAL_MEM_FENCE);
    for (uint k = 0u; k < 16u; k += 1u) {
      acc += ta[ly * 16u + k] * tb[k * 16u + lx];
    }
    barrier(CLK_LOCAL_MEM_FENCE);
  }
  c[row * ldc + col] = acc;
}
