__kernel __attribute__((reqd_work_group_size(128, 1, 1)))
void p1_reduce_final_max(__global const uint *part, __global uint *result, uint count) {
  __local uint buf[128];
  uint lid = get_local_id(0);
  uint best = 0u;
  for (uint i = lid; i < count; i += 128u) {
    best = max(best, part[i]);
  }
  buf[lid] = best;
  barrier(CLK_LOCAL_MEM_FENCE);
  for (uint s = 1u; s < 128u; s *= 2u) {
    uint k = 2u * s * lid;
    if (k + s < 128u) {
      buf[k] = max(buf[k], buf[k + s]);
    }
    barrier(CLK_LOCAL_MEM_FENCE);
  }
  if (lid == 0u) {
    result[0] = buf[0];
  }
}
