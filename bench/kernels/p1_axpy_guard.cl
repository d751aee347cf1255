// y = a * x + y over n words; the host rounds n up to whole groups.
__kernel __attribute__((reqd_work_group_size(256, 1, 1)))
void p1_axpy_guard(__global const uint *x, __global uint *y, uint a, uint n) {
  uint i = get_global_id(0);
  if (i >= n) return;
  y[i] = a * x[i] + y[i];
}
