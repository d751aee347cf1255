__kernel __attribute__((reqd_work_group_size(64, 1, 1)))
void p1_block_reverse_tail(__global const uint *in, __global uint *out, uint blocks) {
  __local uint t[64];
  uint block = get_group_id(0);
  if (block >= blocks) return;
  uint lid = get_local_id(0);
  t[lid] = in[block * 64u + lid];
  barrier(CLK_LOCAL_MEM_FENCE);
  out[block * 64u + lid] = t[63u - lid];
}
