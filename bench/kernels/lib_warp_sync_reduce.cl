// Block sum whose last five levels leave out the barriers, as code for 32 items in lockstep does.
__kernel __attribute__((reqd_work_group_size(64, 1, 1)))
void warp_sync_reduce(__global const uint *in, __global uint *out, uint n) {
  __local uint sm[64];
  uint lid = (uint)get_local_id(0);
  uint i = (uint)get_group_id(0) * 128u + lid;
  uint v = 0u;
  if (i < n) v += in[i];
  if (i + 64u < n) v += in[i + 64u];
  sm[lid] = v;
  barrier(CLK_LOCAL_MEM_FENCE);
  if (lid < 32u) {
    sm[lid] += sm[lid + 32u];
    sm[lid] += sm[lid + 16u];
    sm[lid] += sm[lid + 8u];
    sm[lid] += sm[lid + 4u];
    sm[lid] += sm[lid + 2u];
    sm[lid] += sm[lid + 1u];
  }
  if (lid == 0u) out[(uint)get_group_id(0)] = sm[0];
}
