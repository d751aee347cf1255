__kernel __attribute__((reqd_work_group_size(64, 1, 1))) void two(__global uint *a, __global uint *b) {
  a[get_global_id(0)] = 1u;
  b[get_global_id(0)] = 2u;
}
