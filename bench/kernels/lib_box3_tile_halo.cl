// Sum over 3x3 neighbours, 8x8 tiles with a halo of one, loaded by a loop over 100 places, borders clamped.
__kernel __attribute__((reqd_work_group_size(8, 8, 1)))
void box3_tile_halo(__global const uint *src, __global uint *dst, int width, int height, int pitch) {
  __local uint tile[100];
  int lx = (int)get_local_id(0);
  int ly = (int)get_local_id(1);
  int x0 = (int)get_group_id(0) * 8;
  int y0 = (int)get_group_id(1) * 8;
  for (int k = ly * 8 + lx; k < 100; k += 64) {
    int sx = min(max(x0 + k % 10 - 1, 0), width - 1);
    int sy = min(max(y0 + k / 10 - 1, 0), height - 1);
    tile[k] = src[sy * pitch + sx] & 255u;
  }
  barrier(CLK_LOCAL_MEM_FENCE);
  int x = x0 + lx;
  int y = y0 + ly;
  if (x >= width || y >= height) return;
  uint sum = 0u;
  for (int j = 0; j < 3; j += 1) {
    int r = (ly + j) * 10 + lx;
    sum += tile[r] + tile[r + 1] + tile[r + 2];
  }
  dst[y * pitch + x] = sum / 9u;
}
