__kernel __attribute__((reqd_work_group_size(8, 8, 2)))
void p1_volume_maxpool2(__global const uint *in, __global uint *out, uint nx, uint ny, uint nz) {
  uint x = get_global_id(0);
  uint y = get_global_id(1);
  uint z = get_global_id(2);
  if (x < nx && y < ny && z < nz) {
    uint p = z * 8192u + y * 128u + x * 2u;
    uint m = in[p];
    m = max(m, in[p + 1u]);
    m = max(m, in[p + 64u]);
    m = max(m, in[p + 65u]);
    m = max(m, in[p + 4096u]);
    m = max(m, in[p + 4097u]);
    m = max(m, in[p + 4160u]);
    m = max(m, in[p + 4161u]);
    out[z * 1024u + y * 32u + x] = m;
  }
}
