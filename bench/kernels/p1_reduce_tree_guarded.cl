__kernel __attribute__((reqd_work_group_size(256, 1, 1)))
void p1_reduce_tree_guarded(__global const uint *in, __global uint *out, uint n) {
  __local uint part[256];
  uint lid = get_local_id(0);
  uint i = get_global_id(0);
  part[lid] = i < n ? in[i] : 0u;
  barrier(CLK_LOCAL_MEM_FENCE);
  for (uint s = 128u; s > 0u; s /= 2u) {
    if (lid < s) {
      part[lid] += part[lid + s];
    }
    barrier(CLK_LOCAL_MEM_FENCE);
  }
  if (lid == 0u) {
    out[get_group_id(0)] = part[0];
  }
}
