__kernel __attribute__((reqd_work_group_size(64, 1, 1)))
void p1_hist_shared_bins(__global const uint *in, __global uint *out) {
  __local uint bins[16];
  uint lid = get_local_id(0);
  if (lid < 16u) bins[lid] = 0u;
  barrier(CLK_LOCAL_MEM_FENCE);
  uint b = in[get_global_id(0)] & 15u;
  bins[b] += 1u;
  barrier(CLK_LOCAL_MEM_FENCE);
  if (lid < 16u) {
    out[get_group_id(0) * 16u + lid] = bins[lid];
  }
}
