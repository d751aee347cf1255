__kernel __attribute__((reqd_work_group_size(64, 1, 1)))
void p1_search_rows(__global const uint *a, __global uint *found, uint rows, uint cols, uint key) {
  uint row = get_global_id(0);
  if (row >= rows) return;
  for (uint c = 0u; c < cols; c += 1u) {
    if (a[row * 128u + c] == key) {
      found[row] = c;
      return;
    }
  }
  found[row] = cols;
}
