// Integral image of a 32x32 block per work-group: rows in local memory with padding, then columns.
__kernel __attribute__((reqd_work_group_size(32, 1, 1)))
void integral_rows_cols(__global const uint *src, __global uint *dst, uint pitch) {
  __local uint t[1056];
  uint lid = (uint)get_local_id(0);
  uint x0 = (uint)get_group_id(0) * 32u;
  uint y0 = (uint)get_group_id(1) * 32u;
  for (uint k = lid; k < 1024u; k += 32u) {
    t[(k >> 5) * 33u + (k & 31u)] = src[(y0 + (k >> 5)) * pitch + x0 + (k & 31u)];
  }
  barrier(CLK_LOCAL_MEM_FENCE);
  uint sum = 0u;
  for (uint x = 0u; x < 32u; x += 1u) {
    sum += t[lid * 33u + x];
    t[lid * 33u + x] = sum;
  }
  barrier(CLK_LOCAL_MEM_FENCE);
  sum = 0u;
  for (uint y = 0u; y < 32u; y += 1u) {
    sum += t[y * 33u + lid];
    dst[(y0 + y) * pitch + x0 + lid] = sum;
  }
}
