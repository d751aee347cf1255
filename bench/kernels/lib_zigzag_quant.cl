// Quantizes 8x8 blocks and stores them in zigzag order; the order is a table, its entries masked.
__kernel __attribute__((reqd_work_group_size(64, 1, 1)))
void zigzag_quant(__global const int *coef, __global const uint *order, __global const int *q, __global int *out) {
  __local int blk[64];
  uint lid = (uint)get_local_id(0);
  uint base = (uint)get_group_id(0) * 64u;
  int divisor = max(q[lid], 1);
  int c = coef[base + lid];
  int h = (c < 0) ? -(divisor / 2) : divisor / 2;
  blk[lid] = (min(max(c, -32768), 32767) + min(max(h, -32768), 32767)) / divisor;
  barrier(CLK_LOCAL_MEM_FENCE);
  out[base + lid] = blk[order[lid] & 63u];
}
