// Fills a segment of len words per work-item with a 32-bit LFSR, seed by a mixed id.
__kernel __attribute__((reqd_work_group_size(64, 1, 1)))
void lfsr_fill_segments(__global uint *out, uint len, uint seed) {
  uint id = (uint)get_global_id(0);
  uint s = (id + seed) * 2654435769u;
  s ^= s >> 16;
  if (s == 0u) s = 1u;
  uint first = id * len;
  uint end = first + len;
  while (first < end) {
    uint lsb = s & 1u;
    s = (s >> 1) ^ (0xd0000001u & (0u - lsb));
    out[first] = s;
    first += 1u;
  }
}
