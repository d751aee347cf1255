__kernel __attribute__((reqd_work_group_size(32, 1, 1)))
void p1_hist_local_bins(__global const uint *in, __global uint *out, uint n) {
  __local uint bins[512];
  uint lid = get_local_id(0);
  for (uint k = 0u; k < 16u; k += 1u) {
    bins[lid * 16u + k] = 0u;
  }
  for (uint i = get_global_id(0); i < n; i += get_global_size(0)) {
    uint b = lid * 16u + (in[i] & 15u);
    bins[b] += 1u;
  }
  barrier(CLK_LOCAL_MEM_FENCE);
  if (lid < 16u) {
    uint total = 0u;
    for (uint k = 0u; k < 32u; k += 1u) {
      total += bins[k * 16u + lid];
    }
    out[get_group_id(0) * 16u + lid] = total;
  }
}
