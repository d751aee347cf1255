// Number theoretic transform of 32 points modulo 12289, decimation in frequency; four transforms per group, a pair per work-item.
__kernel __attribute__((reqd_work_group_size(16, 4, 1)))
void ntt_blocks(__global uint *poly, __global const uint *roots) {
  __local uint p[132];
  uint i = (uint)get_local_id(0);
  uint o = (uint)get_local_id(1) * 33u;
  uint g = ((uint)get_group_id(0) * 4u + (uint)get_local_id(1)) * 32u;
  p[o + i] = poly[g + i] % 12289u;
  p[o + i + 16u] = poly[g + i + 16u] % 12289u;
  barrier(CLK_LOCAL_MEM_FENCE);
  uint step_len = 16u;
  uint table = 0u;
  while (step_len != 0u) {
    uint blk = i / step_len;
    uint in_blk = i % step_len;
    uint a = o + blk * step_len * 2u + in_blk;
    uint w = roots[table + in_blk] % 12289u;
    uint u = p[a];
    uint v = p[a + step_len];
    p[a] = (u + v) % 12289u;
    p[a + step_len] = (u + 12289u - v) * w % 12289u;
    table += step_len;
    step_len /= 2u;
    barrier(CLK_LOCAL_MEM_FENCE);
  }
  poly[g + i] = p[o + i];
  poly[g + i + 16u] = p[o + i + 16u];
}
