// Sparse rows times vector, eight work-items per row, row pointers and columns clamped; 64-wide groups hold 8 rows.
__kernel __attribute__((reqd_work_group_size(64, 1, 1)))
void csr_row_vector(__global const uint *ptr, __global const uint *col, __global const uint *val,
                    __global const uint *x, __global uint *y, uint rows, uint nnz, uint cols) {
  __local uint part[64];
  uint lid = (uint)get_local_id(0);
  uint lane = lid & 7u;
  uint row = (uint)get_group_id(0) * 8u + (lid >> 3);
  uint sum = 0u;
  if (row < rows) {
    uint begin = min(ptr[row], nnz);
    uint end = min(ptr[row + 1u], nnz);
    for (uint p = begin + lane; p < end; p += 8u) {
      sum += val[p] * x[min(col[p], cols - 1u)];
    }
  }
  part[lid] = sum;
  barrier(CLK_LOCAL_MEM_FENCE);
  if (lane < 4u) part[lid] += part[lid + 4u];
  barrier(CLK_LOCAL_MEM_FENCE);
  if (lane < 2u) part[lid] += part[lid + 2u];
  barrier(CLK_LOCAL_MEM_FENCE);
  if (lane == 0u && row < rows) y[row] = part[lid] + part[lid + 1u];
}
