/* All work-items of a group store to one element. */
__kernel __attribute__((reqd_work_group_size(64, 1, 1))) void race(__global uint *sums, __global const uint *in) {
  sums[get_group_id(0)] = in[get_global_id(0)];
}
