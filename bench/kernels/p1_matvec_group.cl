__kernel __attribute__((reqd_work_group_size(64, 1, 1)))
void p1_matvec_group(__global const uint *a, __global const uint *x, __global uint *y, uint cols) {
  __local uint part[64];
  uint lid = get_local_id(0);
  uint row = get_group_id(0);
  uint acc = 0u;
  for (uint c = lid; c < cols; c += 64u) {
    acc += a[row * 1024u + c] * x[c];
  }
  part[lid] = acc;
  barrier(CLK_LOCAL_MEM_FENCE);
  for (uint s = 32u; s > 0u; s >>= 1) {
    if (lid < s) {
      part[lid] += part[lid + s];
    }
    barrier(CLK_LOCAL_MEM_FENCE);
  }
  if (lid == 0u) {
    y[row] = part[0];
  }
}
