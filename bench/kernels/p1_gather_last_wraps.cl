__kernel __attribute__((reqd_work_group_size(64, 1, 1)))
void p1_gather_last_wraps(__global const uint *src, __global const uint *idx, __global uint *out, uint m, uint n) {
  uint i = get_global_id(0);
  if (i < n) {
    out[i] = src[min(idx[i], m - 1u)];
  }
}
