__kernel __attribute__((reqd_work_group_size(64, 1, 1)))
void p1_hist_item_slices(__global const uint *in, __global uint *hist, uint per, uint n) {
  uint id = get_global_id(0);
  uint bins = id * 16u;
  for (uint b = 0u; b < 16u; b += 1u) {
    hist[bins + b] = 0u;
  }
  uint first = id * per;
  for (uint k = 0u; k < per; k += 1u) {
    if (first + k >= n) break;
    uint b = in[first + k] >> 28;
    hist[bins + b] += 1u;
  }
}
