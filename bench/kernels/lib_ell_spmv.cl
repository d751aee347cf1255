// ELLPACK times vector, column-major with pitch, a row per work-item; empty places have the column 0xffffffff.
__kernel __attribute__((reqd_work_group_size(64, 1, 1)))
void ell_spmv(__global const uint *cols, __global const uint *vals, __global const uint *x, __global uint *y,
              uint rows, uint width, uint pitch, uint n) {
  uint row = (uint)get_global_id(0);
  if (row < rows) {
    uint acc = 0u;
    uint at = row;
    for (uint k = 0u; k < width; k += 1u) {
      uint c = cols[at];
      if (c == 0xffffffffu) break;
      if (c < n) acc += vals[at] * x[c];
      at += pitch;
    }
    y[row] = acc;
  }
}
