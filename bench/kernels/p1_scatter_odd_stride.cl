__kernel __attribute__((reqd_work_group_size(64, 1, 1)))
void p1_scatter_odd_stride(__global const uint *in, __global uint *out) {
  uint i = get_global_id(0);
  out[(i * 45u + 7u) & 1023u] = in[i];
}
