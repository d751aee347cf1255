__kernel __attribute__((reqd_work_group_size(64, 1, 1)))
void p1_csr_trusted(__global const uint *ptr, __global const uint *col, __global const uint *val,
                    __global const uint *x, __global uint *y, uint rows, uint cols, uint nnz) {
  uint row = get_global_id(0);
  if (row >= rows) return;
  uint acc = 0u;
  for (uint k = ptr[row]; k < ptr[row + 1u]; k += 1u) {
    acc += val[k] * x[col[k]];
  }
  y[row] = acc;
}
