__kernel __attribute__((reqd_work_group_size(64, 1, 1)))
void p1_find_byte(__global const uint *text, __global uint *out, uint needle) {
  uint id = get_global_id(0);
  uint base = id * 16u;
  uint pos = 64u;
  for (uint w = 0u; w < 16u; w += 1u) {
    uint word = text[base + w];
    for (uint b = 0u; b < 4u; b += 1u) {
      if ((word & 255u) == needle) {
        pos = w * 4u + b;
        break;
      }
      word >>= 8;
    }
    if (pos < 64u) break;
  }
  out[id] = pos;
}
