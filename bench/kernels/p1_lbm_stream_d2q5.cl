__kernel __attribute__((reqd_work_group_size(16, 4, 1)))
void p1_lbm_stream_d2q5(__global const uint *f, __global uint *g) {
  uint x = get_global_id(0);
  uint y = get_global_id(1);
  uint p = y * 64u + x;
  uint xm = (x + 63u) & 63u;
  uint xp = (x + 1u) & 63u;
  uint ym = (y + 63u) & 63u;
  uint yp = (y + 1u) & 63u;
  g[p] = f[p];
  g[4096u + p] = f[4096u + y * 64u + xm];
  g[8192u + p] = f[8192u + y * 64u + xp];
  g[12288u + p] = f[12288u + ym * 64u + x];
  g[16384u + p] = f[16384u + yp * 64u + x];
}
