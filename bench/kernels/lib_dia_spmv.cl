// Diagonal format times vector: signed offsets, a row per work-item, places outside the matrix are passed over.
__kernel __attribute__((reqd_work_group_size(64, 1, 1)))
void dia_spmv(__global const int *off, __global const uint *diag, __global const uint *x, __global uint *y,
              int n, int ndiag) {
  __local int offs[32];
  int lid = (int)get_local_id(0);
  if (lid < ndiag) offs[lid] = min(max(off[lid], -65536), 65536);
  barrier(CLK_LOCAL_MEM_FENCE);
  int row = (int)get_global_id(0);
  if (row >= n) return;
  uint acc = 0u;
  for (int d = 0; d < ndiag; d += 1) {
    int c = row + offs[d];
    if (c < 0 || c >= n) continue;
    acc += diag[d * n + row] * x[c];
  }
  y[row] = acc;
}
