__kernel __attribute__((reqd_work_group_size(64, 1, 1))) void missed_barrier(__global uint *a) {
  uint lid = get_local_id(0);
  for (uint i = 0u; i < 2u; i += 1u)
    if (i == (lid & 1u))
      barrier(CLK_LOCAL_MEM_FENCE);
}
