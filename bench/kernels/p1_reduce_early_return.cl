__kernel __attribute__((reqd_work_group_size(64, 1, 1)))
void p1_reduce_early_return(__global const uint *in, __global uint *out, uint n) {
  __local uint part[64];
  uint i = get_global_id(0);
  if (i >= n) return;
  uint lid = get_local_id(0);
  part[lid] = in[i];
  barrier(CLK_LOCAL_MEM_FENCE);
  for (uint s = 32u; s > 0u; s >>= 1) {
    if (lid < s) {
      part[lid] += part[lid + s];
    }
    barrier(CLK_LOCAL_MEM_FENCE);
  }
  if (lid == 0u) {
    out[get_group_id(0)] = part[0];
  }
}
