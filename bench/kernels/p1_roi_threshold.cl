__kernel __attribute__((reqd_work_group_size(16, 16, 1)))
void p1_roi_threshold(__global const uint *img, __global uint *mask,
                      uint x0, uint y0, uint roi_w, uint roi_h, uint level) {
  uint x = get_global_id(0);
  uint y = get_global_id(1);
  if (x >= roi_w || y >= roi_h) return;
  uint at = (y0 + y) * 640u + x0 + x;
  mask[y * roi_w + x] = img[at] >= level ? 1u : 0u;
}
