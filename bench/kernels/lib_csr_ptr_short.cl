// Row lengths of a CSR matrix and their greatest per group; the row pointers are one short.
__kernel __attribute__((reqd_work_group_size(64, 1, 1)))
void csr_ptr_short(__global const uint *ptr, __global uint *len, __global uint *longest, uint rows) {
  __local uint m[64];
  uint lid = (uint)get_local_id(0);
  uint row = (uint)get_global_id(0);
  uint l = 0u;
  if (row < rows) {
    uint a = ptr[row];
    uint b = ptr[row + 1u];
    l = (b > a) ? b - a : 0u;
    len[row] = l;
  }
  m[lid] = l;
  barrier(CLK_LOCAL_MEM_FENCE);
  for (uint s = 32u; s > 0u; s >>= 1) {
    if (lid < s) m[lid] = max(m[lid], m[lid + s]);
    barrier(CLK_LOCAL_MEM_FENCE);
  }
  if (lid == 0u) longest[(uint)get_group_id(0)] = m[0];
}
