// C := A * B by 8x8 tiles; the host pads all three matrices to whole tiles.
__kernel __attribute__((reqd_work_group_size(8, 8, 1)))
void gemm_tile8(__global const uint *a, __global const uint *b, __global uint *c,
                uint ktiles, uint lda, uint ldb, uint ldc) {
  __local uint as[64];
  __local uint bs[64];
  uint tx = (uint)get_local_id(0);
  uint ty = (uint)get_local_id(1);
  uint col = (uint)get_group_id(0) * 8u + tx;
  uint row = (uint)get_group_id(1) * 8u + ty;
  uint acc = 0u;
  for (uint t = 0u; t < ktiles; t += 1u) {
    as[ty * 8u + tx] = a[row * lda + t * 8u + tx];
    bs[ty * 8u + tx] = b[(t * 8u + ty) * ldb + col];
    barrier(CLK_LOCAL_MEM_FENCE);
    for (uint k = 0u; k < 8u; k += 1u) {
      acc += as[ty * 8u + k] * bs[k * 8u + tx];
    }
    barrier(CLK_LOCAL_MEM_FENCE);
  }
  c[row * ldc + col] = acc;
}
