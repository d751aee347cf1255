__kernel __attribute__((reqd_work_group_size(8, 8, 1)))
void p1_matmul_one_barrier(__global const uint *a, __global const uint *b, __global uint *c, uint tiles) {
  __local uint ta[64];
  __local uint tb[64];
  uint lx = get_local_id(0);
  uint ly = get_local_id(1);
  uint col = get_global_id(0);
  uint row = get_global_id(1);
  uint acc = 0u;
  for (uint t = 0u; t < tiles; t += 1u) {
    ta[ly * 8u + lx] = a[row * 128u + t * 8u + lx];
    tb[ly * 8u + lx] = b[(t * 8u + ly) * 128u + col];
    barrier(CLK_LOCAL_MEM_FENCE);
    for (uint k = 0u; k < 8u; k += 1u) {
      acc += ta[ly * 8u + k] * tb[k * 8u + lx];
    }
  }
  c[row * 128u + col] = acc;
}
