// A := A + x * y^T, a cell per work-item in groups of 16x4.
__kernel __attribute__((reqd_work_group_size(16, 4, 1)))
void ger_rank1(__global const uint *x, __global const uint *y, __global uint *a, uint m, uint n, uint lda) {
  uint col = (uint)get_global_id(0);
  uint row = (uint)get_global_id(1);
  if (col >= n || row >= m) return;
  uint p = row * lda + col;
  a[p] = a[p] + x[row] * y[col];
}
