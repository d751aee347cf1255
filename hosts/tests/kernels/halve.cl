// Halves the first n numbers of `in` into `out`.
__kernel __attribute__((reqd_work_group_size(64, 1, 1))) void halve(__global uint *out, __global const uint *in, uint n) {
  uint i = get_global_id(0);
  if (i < n)
    out[i] = in[i] / 2u;
}
