__kernel __attribute__((reqd_work_group_size(64, 1, 1)))
void p1_merge_path(__global const uint *a, __global const uint *b, __global uint *out, uint na, uint nb) {
  uint i = get_global_id(0);
  if (i >= na + nb) return;
  uint lo = i > nb ? i - nb : 0u;
  uint hi = min(i, na);
  while (lo < hi) {
    uint mid = (lo + hi) / 2u;
    if (a[mid] <= b[i - 1u - mid]) {
      lo = mid + 1u;
    } else {
      hi = mid;
    }
  }
  uint j = i - lo;
  uint v = 0u;
  if (lo < na && (j >= nb || a[lo] <= b[j])) {
    v = a[lo];
  } else {
    v = b[j];
  }
  out[i] = v;
}
