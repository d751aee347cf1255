// Integer 8x8 transform of a block: butterflies along rows in local memory with pitch 9, then along columns.
__kernel __attribute__((reqd_work_group_size(8, 8, 1)))
void dct8_rows_cols(__global const int *src, __global int *dst) {
  __local int t[576];
  uint k = (uint)get_local_id(0);
  uint blk = (uint)get_local_id(1);
  uint base = ((uint)get_group_id(0) * 8u + blk) * 64u;
  uint o = blk * 72u;
  for (uint i = 0u; i < 8u; i += 1u) {
    t[o + i * 9u + k] = (src[base + i * 8u + k] & 255) - 128;
  }
  barrier(CLK_LOCAL_MEM_FENCE);
  for (uint pass = 0u; pass < 2u; pass += 1u) {
    uint p = (pass == 0u) ? o + k * 9u : o + k;
    uint q = (pass == 0u) ? 1u : 9u;
    int s07 = t[p] + t[p + 7u * q];
    int d07 = t[p] - t[p + 7u * q];
    int s16 = t[p + q] + t[p + 6u * q];
    int d16 = t[p + q] - t[p + 6u * q];
    int s25 = t[p + 2u * q] + t[p + 5u * q];
    int d25 = t[p + 2u * q] - t[p + 5u * q];
    int s34 = t[p + 3u * q] + t[p + 4u * q];
    int d34 = t[p + 3u * q] - t[p + 4u * q];
    t[p] = (s07 + s16 + s25 + s34) / 8;
    t[p + q] = (10 * d07 + 9 * d16 + 6 * d25 + 2 * d34) / 32;
    t[p + 2u * q] = (10 * (s07 - s34) + 4 * (s16 - s25)) / 32;
    t[p + 3u * q] = (9 * d07 - 2 * d16 - 10 * d25 - 6 * d34) / 32;
    t[p + 4u * q] = (s07 - s16 - s25 + s34) / 8;
    t[p + 5u * q] = (6 * d07 - 10 * d16 + 2 * d25 + 9 * d34) / 32;
    t[p + 6u * q] = (4 * (s07 - s34) - 10 * (s16 - s25)) / 32;
    t[p + 7u * q] = (2 * d07 - 6 * d16 + 9 * d25 - 10 * d34) / 32;
    barrier(CLK_LOCAL_MEM_FENCE);
  }
  for (uint i = 0u; i < 8u; i += 1u) {
    dst[base + i * 8u + k] = min(max(t[o + i * 9u + k], -128), 127);
  }
}
