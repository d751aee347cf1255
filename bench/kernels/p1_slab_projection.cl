__kernel __attribute__((reqd_work_group_size(16, 8, 1)))
void p1_slab_projection(__global const uint *in, __global uint *out, uint nz) {
  uint x = get_global_id(0);
  uint y = get_global_id(1);
  uint slab = get_global_id(2);
  uint m = 0u;
  for (uint k = 0u; k < 8u; k += 1u) {
    uint z = slab * 8u + k;
    if (z < nz) {
      m = max(m, in[z * 4096u + y * 64u + x]);
    }
  }
  out[slab * 4096u + y * 64u + x] = m;
}
