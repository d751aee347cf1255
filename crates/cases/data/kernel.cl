__kernel __attribute__((reqd_work_group_size(2, 1, 1))) void k(__global uint *a) {
  uint gid = get_global_id(0);
  a[gid + 1u] = a[gid];
}
