__kernel __attribute__((reqd_work_group_size(256, 1, 1)))
void p1_strided_copy_tail(__global const uint *in, __global uint *out, uint n, uint stride) {
  uint i = get_global_id(0);
  if (i < n) {
    out[i * stride] = in[i];
  }
}
