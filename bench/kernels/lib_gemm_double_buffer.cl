// C := A * B, 16x16 tiles by 16x4 work-items with four rows each; the next tiles are loaded while these are used.
__kernel __attribute__((reqd_work_group_size(16, 4, 1)))
void gemm_double_buffer(__global const uint *a, __global const uint *b, __global uint *c,
                        uint ktiles, uint lda, uint ldb, uint ldc) {
  __local uint as[512];
  __local uint bs[512];
  uint tx = (uint)get_local_id(0);
  uint ty = (uint)get_local_id(1);
  uint lid = ty * 16u + tx;
  uint row0 = (uint)get_group_id(1) * 16u;
  uint col0 = (uint)get_group_id(0) * 16u;
  uint acc0 = 0u;
  uint acc1 = 0u;
  uint acc2 = 0u;
  uint acc3 = 0u;
  uint cur = 0u;
  for (uint e = lid; e < 256u; e += 64u) {
    as[e] = a[(row0 + e / 16u) * lda + e % 16u];
    bs[e] = b[(e / 16u) * ldb + col0 + e % 16u];
  }
  barrier(CLK_LOCAL_MEM_FENCE);
  for (uint t = 0u; t < ktiles; t += 1u) {
    if (t + 1u < ktiles) {
      uint nxt = (cur ^ 1u) * 256u;
      uint k0 = (t + 1u) * 16u;
      for (uint e = lid; e < 256u; e += 64u) {
        as[nxt + e] = a[(row0 + e / 16u) * lda + k0 + e % 16u];
        bs[nxt + e] = b[(k0 + e / 16u) * ldb + col0 + e % 16u];
      }
    }
    uint base = cur * 256u;
    for (uint k = 0u; k < 16u; k += 1u) {
      uint bv = bs[base + k * 16u + tx];
      acc0 += as[base + ty * 16u + k] * bv;
      acc1 += as[base + (ty + 4u) * 16u + k] * bv;
      acc2 += as[base + (ty + 8u) * 16u + k] * bv;
      acc3 += as[base + (ty + 12u) * 16u + k] * bv;
    }
    barrier(CLK_LOCAL_MEM_FENCE);
    cur ^= 1u;
  }
  c[(row0 + ty) * ldc + col0 + tx] = acc0;
  c[(row0 + ty + 4u) * ldc + col0 + tx] = acc1;
  c[(row0 + ty + 8u) * ldc + col0 + tx] = acc2;
  c[(row0 + ty + 12u) * ldc + col0 + tx] = acc3;
}
