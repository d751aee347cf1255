__kernel __attribute__((reqd_work_group_size(64, 1, 1)))
void p1_flags_to_bitmap(__global const uint *flags, __global uint *bitmap, __global uint *ones) {
  uint id = get_global_id(0);
  uint w = 0u;
  for (uint k = 0u; k < 32u; k += 1u) {
    w = (w >> 1) | (flags[id * 32u + k] != 0u ? 0x80000000u : 0u);
  }
  bitmap[id] = w;
  uint v = w - ((w >> 1) & 0x55555555u);
  v = (v & 0x33333333u) + ((v >> 2) & 0x33333333u);
  v = (v + (v >> 4)) & 0x0f0f0f0fu;
  ones[id] = (v * 0x01010101u) >> 24;
}
