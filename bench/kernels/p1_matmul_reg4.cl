__kernel __attribute__((reqd_work_group_size(8, 8, 1)))
void p1_matmul_reg4(__global const uint *a, __global const uint *b, __global uint *c,
                    uint lda, uint ldb, uint ldc, uint depth) {
  __local uint ta[256];
  __local uint tb[64];
  uint lx = get_local_id(0);
  uint ly = get_local_id(1);
  uint col = get_global_id(0);
  uint row0 = get_group_id(1) * 32u;
  uint c0 = 0u;
  uint c1 = 0u;
  uint c2 = 0u;
  uint c3 = 0u;
  for (uint k0 = 0u; k0 < depth; k0 += 8u) {
    for (uint r = ly; r < 32u; r += 8u) {
      ta[r * 8u + lx] = k0 + lx < depth ? a[(row0 + r) * lda + k0 + lx] : 0u;
    }
    tb[ly * 8u + lx] = k0 + ly < depth ? b[(k0 + ly) * ldb + col] : 0u;
    barrier(CLK_LOCAL_MEM_FENCE);
    for (uint k = 0u; k < 8u; k += 1u) {
      uint v = tb[k * 8u + lx];
      c0 += ta[ly * 8u + k] * v;
      c1 += ta[(ly + 8u) * 8u + k] * v;
      c2 += ta[(ly + 16u) * 8u + k] * v;
      c3 += ta[(ly + 24u) * 8u + k] * v;
    }
    barrier(CLK_LOCAL_MEM_FENCE);
  }
  c[(row0 + ly) * ldc + col] = c0;
  c[(row0 + ly + 8u) * ldc + col] = c1;
  c[(row0 + ly + 16u) * ldc + col] = c2;
  c[(row0 + ly + 24u) * ldc + col] = c3;
}
