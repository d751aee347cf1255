__kernel __attribute__((reqd_work_group_size(8, 8, 4)))
void p1_stencil_3d7(__global const uint *in, __global uint *out, uint nx, uint ny, uint nz) {
  uint x = get_global_id(0);
  uint y = get_global_id(1);
  uint z = get_global_id(2);
  if (x == 0u || y == 0u || z == 0u || x + 1u >= nx || y + 1u >= ny || z + 1u >= nz) return;
  uint p = z * 4096u + y * 64u + x;
  uint total = in[p] + in[p - 1u] + in[p + 1u] + in[p - 64u] + in[p + 64u] + in[p - 4096u] + in[p + 4096u];
  out[p] = total / 7u;
}
