__kernel __attribute__((reqd_work_group_size(64, 1, 1)))
void p1_ell_spmv(__global const uint *col, __global const uint *val, __global const uint *x, __global uint *y,
                 uint rows, uint cols, uint width) {
  uint row = get_global_id(0);
  if (row >= rows) return;
  uint acc = 0u;
  for (uint k = 0u; k < width; k += 1u) {
    uint p = k * 4096u + row;
    uint c = col[p];
    if (c < cols) {
      acc += val[p] * x[c];
    }
  }
  y[row] = acc;
}
