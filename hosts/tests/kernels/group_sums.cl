/* Sums the numbers of each work-group, in memory that the host hands over. */
__kernel void group_sums(__global const ushort *in, __global uint *sums, __local uint *part) {
  uint i = get_local_id(0);
  part[i] = in[get_global_id(0)];
  barrier(CLK_LOCAL_MEM_FENCE);
  for (uint step = 32; step > 0; step >>= 1) {
    if (i < step)
      part[i] += part[i + step];
    barrier(CLK_LOCAL_MEM_FENCE);
  }
  if (i == 0)
    sums[get_group_id(0)] = part[0];
}
