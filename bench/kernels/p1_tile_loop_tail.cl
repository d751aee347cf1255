__kernel __attribute__((reqd_work_group_size(64, 1, 1)))
void p1_tile_loop_tail(__global const uint *in, __global uint *out, uint n) {
  __local uint t[64];
  uint lid = get_local_id(0);
  for (uint i = lid; i < n; i += 64u) {
    t[lid] = in[i];
    barrier(CLK_LOCAL_MEM_FENCE);
    out[i] = t[lid ^ 1u];
    barrier(CLK_LOCAL_MEM_FENCE);
  }
}
