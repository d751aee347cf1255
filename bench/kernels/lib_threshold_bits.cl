// Packs the test "value above limit" of 32 pixels into one word; two words per work-item.
__kernel __attribute__((reqd_work_group_size(64, 1, 1)))
void threshold_bits(__global const uint *src, __global uint *bits, uint n, uint limit) {
  uint words = (n + 31u) / 32u;
  for (uint w = (uint)get_global_id(0); w < words; w += (uint)get_global_size(0)) {
    uint acc = 0u;
    uint base = w * 32u;
    for (uint k = 0u; k < 32u; k += 1u) {
      if (base + k >= n) break;
      uint bit = (src[base + k] > limit) ? 1u : 0u;
      acc = (acc >> 1) | (bit << 31);
    }
    bits[w] = acc;
  }
}
