// CSR times vector, a row per work-item, at most 64 entries of a row are taken.
__kernel __attribute__((reqd_work_group_size(64, 1, 1)))
void csr_scalar_capped(__global const uint *ptr, __global const uint *col, __global const uint *val,
                       __global const uint *x, __global uint *y, uint rows, uint nnz, uint mask) {
  uint row = (uint)get_global_id(0);
  if (row >= rows) return;
  uint p = ptr[row];
  uint end = ptr[row + 1u];
  uint sum = 0u;
  for (uint k = 0u; k < 64u; k += 1u) {
    if (p >= end) break;
    if (p >= nnz) break;
    sum += val[p] * x[col[p] & mask];
    p += 1u;
  }
  y[row] = sum;
}
