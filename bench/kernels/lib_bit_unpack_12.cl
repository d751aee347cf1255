// Unpacks eight 12-bit fields from each three words, three loads and eight stores per work-item.
__kernel __attribute__((reqd_work_group_size(64, 1, 1)))
void bit_unpack_12(__global const uint *packed, __global uint *out, uint groups_of_8) {
  uint id = (uint)get_global_id(0);
  if (id >= groups_of_8) return;
  uint w0 = packed[id * 3u];
  uint w1 = packed[id * 3u + 1u];
  uint w2 = packed[id * 3u + 2u];
  uint o = id << 3;
  out[o] = w0 & 0xfffu;
  out[o | 1u] = (w0 >> 12) & 0xfffu;
  out[o | 2u] = ((w0 >> 24) | (w1 << 8)) & 0xfffu;
  out[o | 3u] = (w1 >> 4) & 0xfffu;
  out[o | 4u] = (w1 >> 16) & 0xfffu;
  out[o | 5u] = ((w1 >> 28) | (w2 << 4)) & 0xfffu;
  out[o | 6u] = (w2 >> 8) & 0xfffu;
  out[o | 7u] = w2 >> 20;
}
