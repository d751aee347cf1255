__kernel __attribute__((reqd_work_group_size(16, 16, 1))) void transpose(__global const uint *a, __global uint *b) {
  __local uint tile[272];
  uint lx = get_local_id(0);
  uint ly = get_local_id(1);
  tile[ly * 17u + lx] = a[(get_group_id(1) * 16u + ly) * 1024u + get_group_id(0) * 16u + lx];
  barrier(CLK_LOCAL_MEM_FENCE);
  b[(get_group_id(0) * 16u + ly) * 512u + get_group_id(1) * 16u + lx] = tile[lx * 17u + ly];
}
