__kernel __attribute__((reqd_work_group_size(64, 1, 1))) void shift(__global uint *a) {
  a[get_global_id(0) + 1u] = 0u;
}
