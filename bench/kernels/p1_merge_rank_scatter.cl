__kernel __attribute__((reqd_work_group_size(64, 1, 1)))
void p1_merge_rank_scatter(__global const uint *a, __global const uint *b, __global uint *out, uint na, uint nb) {
  uint i = get_global_id(0);
  if (i < na) {
    uint v = a[i];
    uint lo = 0u;
    uint hi = nb;
    while (lo < hi) {
      uint mid = (lo + hi) / 2u;
      if (b[mid] < v) lo = mid + 1u; else hi = mid;
    }
    out[i + lo] = v;
  }
  if (i < nb) {
    uint v = b[i];
    uint lo = 0u;
    uint hi = na;
    while (lo < hi) {
      uint mid = (lo + hi) / 2u;
      if (a[mid] <= v) lo = mid + 1u; else hi = mid;
    }
    out[i + lo] = v;
  }
}
