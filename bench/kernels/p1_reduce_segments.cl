__kernel __attribute__((reqd_work_group_size(128, 1, 1)))
void p1_reduce_segments(__global const uint *in, __global uint *out) {
  __local uint t[128];
  uint lid = get_local_id(0);
  uint seg = lid / 32u;
  uint lane = lid % 32u;
  t[lid] = in[get_global_id(0)];
  barrier(CLK_LOCAL_MEM_FENCE);
  for (uint s = 16u; s > 0u; s >>= 1) {
    if (lane < s) {
      t[lid] += t[lid + s];
    }
    barrier(CLK_LOCAL_MEM_FENCE);
  }
  if (lane == 0u) {
    out[get_group_id(0) * 4u + seg] = t[lid];
  }
}
