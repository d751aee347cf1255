__kernel __attribute__((reqd_work_group_size(64, 1, 1)))
void p1_csr_clamped(__global const uint *ptr, __global const uint *col, __global const uint *val,
                    __global const uint *x, __global uint *y, uint rows, uint cols, uint nnz) {
  uint row = get_global_id(0);
  if (row >= rows) return;
  uint from = min(ptr[row], nnz);
  uint to = min(ptr[row + 1u], nnz);
  to = min(to, from + 64u);
  uint acc = 0u;
  for (uint k = from; k < to; k += 1u) {
    uint c = min(col[k], cols - 1u);
    acc += val[k] * x[c];
  }
  y[row] = acc;
}
