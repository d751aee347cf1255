__kernel __attribute__((reqd_work_group_size(64, 1, 1)))
void p1_reduce_argmax(__global const uint *in, __global uint *best, __global uint *place, uint n) {
  __local uint val[64];
  __local uint pos[64];
  uint lid = get_local_id(0);
  uint i = get_global_id(0);
  uint v = 0u;
  if (i < n) {
    v = in[i];
  }
  val[lid] = v;
  pos[lid] = i;
  barrier(CLK_LOCAL_MEM_FENCE);
  for (uint s = 32u; s > 0u; s >>= 1) {
    if (lid < s) {
      uint a = val[lid];
      uint b = val[lid + s];
      if (b > a || (b == a && pos[lid + s] < pos[lid])) {
        val[lid] = b;
        pos[lid] = pos[lid + s];
      }
    }
    barrier(CLK_LOCAL_MEM_FENCE);
  }
  if (lid == 0u) {
    best[get_group_id(0)] = val[0];
    place[get_group_id(0)] = pos[0];
  }
}
