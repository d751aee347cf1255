__kernel __attribute__((reqd_work_group_size(16, 16, 1)))
void p1_transpose_swap(__global uint *m, uint n) {
  uint x = get_global_id(0);
  uint y = get_global_id(1);
  if (x < n && y < n) {
    uint p = y * 256u + x;
    uint q = x * 256u + y;
    uint t = m[p];
    m[p] = m[q];
    m[q] = t;
  }
}
