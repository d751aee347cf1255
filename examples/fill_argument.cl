__kernel __attribute__((reqd_work_group_size(64, 1, 1))) void fill(__global uint *out, uint begin, uint value) {
  out[begin + get_global_id(0)] = value;
}
