// Any number of groups from 8 up covers all n words.
__kernel __attribute__((reqd_work_group_size(64, 1, 1)))
void p1_grid_stride_min(__global const uint *in, __global uint *out, uint limit, uint n) {
  for (uint i = get_global_id(0); i < n; i += get_global_size(0)) {
    out[i] = min(in[i], limit);
  }
}
