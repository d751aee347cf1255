__kernel __attribute__((reqd_work_group_size(16, 16, 1)))
void p1_box3x3_halo(__global const uint *src, __global uint *dst, int pitch, int width, int height) {
  __local uint tile[324];
  int lx = (int)get_local_id(0);
  int ly = (int)get_local_id(1);
  int ox = (int)get_group_id(0) * 16 - 1;
  int oy = (int)get_group_id(1) * 16 - 1;
  // 18 by 18 words, loaded by 256 items
  for (int k = ly * 16 + lx; k < 324; k += 256) {
    int sx = min(max(ox + k % 18, 0), width - 1);
    int sy = min(max(oy + k / 18, 0), height - 1);
    tile[k] = src[sy * pitch + sx];
  }
  barrier(CLK_LOCAL_MEM_FENCE);
  int x = ox + 1 + lx;
  int y = oy + 1 + ly;
  if (x < width && y < height) {
    uint total = 0u;
    for (int dy = 0; dy < 3; dy += 1) {
      for (int dx = 0; dx < 3; dx += 1) {
        total += tile[(ly + dy) * 18 + lx + dx];
      }
    }
    dst[y * pitch + x] = total / 9u;
  }
}
