__kernel __attribute__((reqd_work_group_size(64, 1, 1)))
void p1_insertion_segment(__global uint *a) {
  uint base = get_global_id(0) * 8u;
  for (uint i = 1u; i < 8u; i += 1u) {
    uint v = a[base + i];
    uint j = i;
    while (j > 0u && a[base + j - 1u] > v) {
      a[base + j] = a[base + j - 1u];
      j -= 1u;
    }
    a[base + j] = v;
  }
}
