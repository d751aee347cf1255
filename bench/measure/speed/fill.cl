__kernel __attribute__((reqd_work_group_size(256, 1, 1))) void fill(__global uint *a, uint value) {
  a[get_global_id(0)] = value;
}
