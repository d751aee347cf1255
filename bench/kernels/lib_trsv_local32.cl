// x := L^-1 b modulo 2^32, L unit lower triangular, 32x32 per work-group, forward substitution in local memory.
__kernel __attribute__((reqd_work_group_size(32, 1, 1)))
void trsv_local32(__global const uint *l, __global const uint *b, __global uint *x) {
  __local uint xs[32];
  uint lid = (uint)get_local_id(0);
  uint base = (uint)get_group_id(0) * 1024u;
  uint v = b[(uint)get_group_id(0) * 32u + lid];
  for (uint j = 0u; j < 32u; j += 1u) {
    if (lid == j) {
      xs[j] = v;
    }
    barrier(CLK_LOCAL_MEM_FENCE);
    if (lid > j) {
      v -= l[base + lid * 32u + j] * xs[j];
    }
  }
  x[(uint)get_group_id(0) * 32u + lid] = v;
}
