__kernel __attribute__((reqd_work_group_size(64, 1, 1))) void tally(__global uint *sums) {
  sums[get_group_id(0)] = get_local_id(0);
}
