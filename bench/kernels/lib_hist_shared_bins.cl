// Histogram of bytes, 64 bins shared by a group in local memory, four bytes of each word.
__kernel __attribute__((reqd_work_group_size(64, 1, 1)))
void hist_shared_bins(__global const uint *data, __global uint *hist, uint n) {
  __local uint bins[64];
  uint lid = (uint)get_local_id(0);
  uint first = (uint)get_group_id(0) * 256u;
  bins[lid] = 0u;
  barrier(CLK_LOCAL_MEM_FENCE);
  for (uint i = first + lid; i < min(first + 256u, n); i += 64u) {
    uint w = data[i];
    for (uint k = 0u; k < 4u; k += 1u) {
      uint b = (w & 255u) >> 2;
      bins[b] += 1u;
      w >>= 8;
    }
  }
  barrier(CLK_LOCAL_MEM_FENCE);
  hist[(uint)get_group_id(0) * 64u + lid] = bins[lid];
}
