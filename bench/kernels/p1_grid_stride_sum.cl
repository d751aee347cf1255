__kernel __attribute__((reqd_work_group_size(64, 1, 1)))
void p1_grid_stride_sum(__global const uint *in, __global uint *partial, uint n) {
  uint acc = 0u;
  for (uint i = get_global_id(0); i < n; i += get_global_size(0)) {
    acc += in[i];
  }
  partial[get_global_id(0)] = acc;
}
