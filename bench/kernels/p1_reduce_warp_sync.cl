__kernel __attribute__((reqd_work_group_size(64, 1, 1)))
void p1_reduce_warp_sync(__global const uint *in, __global uint *out) {
  __local uint t[64];
  uint lid = get_local_id(0);
  t[lid] = in[get_global_id(0)];
  barrier(CLK_LOCAL_MEM_FENCE);
  if (lid < 32u) {
    t[lid] += t[lid + 32u];
    t[lid] += t[lid + 16u];
    t[lid] += t[lid + 8u];
    t[lid] += t[lid + 4u];
    t[lid] += t[lid + 2u];
    t[lid] += t[lid + 1u];
  }
  if (lid == 0u) {
    out[get_group_id(0)] = t[0];
  }
}
