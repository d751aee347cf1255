// Planar 4:2:0 to packed RGB by fixed point: a block of 2x2 pixels per work-item, results clamped to bytes.
__kernel __attribute__((reqd_work_group_size(8, 8, 1)))
void yuv420_to_rgb(__global const uint *luma, __global const uint *cb, __global const uint *cr,
                   __global uint *rgb, int cw, int ch) {
  int cx = (int)get_global_id(0);
  int cy = (int)get_global_id(1);
  if (cx >= cw || cy >= ch) return;
  int u = (int)(cb[cy * cw + cx] & 255u) - 128;
  int v = (int)(cr[cy * cw + cx] & 255u) - 128;
  int rv = (359 * v) / 256;
  int guv = (88 * u + 183 * v) / 256;
  int bu = (454 * u) / 256;
  int pitch = 2 * cw;
  for (int k = 0; k < 4; k += 1) {
    int p = (2 * cy + k / 2) * pitch + 2 * cx + k % 2;
    int l = (int)(luma[p] & 255u);
    uint r = (uint)min(max(l + rv, 0), 255);
    uint g = (uint)min(max(l - guv, 0), 255);
    uint b = (uint)min(max(l + bu, 0), 255);
    rgb[p] = (r << 16) | (g << 8) | b;
  }
}
