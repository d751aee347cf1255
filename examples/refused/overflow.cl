__kernel __attribute__((reqd_work_group_size(64, 1, 1))) void twice(__global int *a, int n) {
  a[get_global_id(0)] = n + n;
}
