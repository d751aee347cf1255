__kernel __attribute__((reqd_work_group_size(16, 16, 1)))
void p1_life_torus(__global const uint *in, __global uint *out, uint width, uint height) {
  uint x = get_global_id(0);
  uint y = get_global_id(1);
  if (x >= width || y >= height) return;
  uint xl = (x + width - 1u) % width;
  uint xr = (x + 1u) % width;
  uint yu = (y + height - 1u) % height * 256u;
  uint yd = (y + 1u) % height * 256u;
  uint n = in[yu + xl] + in[yu + x] + in[yu + xr] + in[y * 256u + xl] + in[y * 256u + xr]
         + in[yd + xl] + in[yd + x] + in[yd + xr];
  uint c = in[y * 256u + x];
  out[y * 256u + x] = n == 3u || (n == 2u && c == 1u) ? 1u : 0u;
}
