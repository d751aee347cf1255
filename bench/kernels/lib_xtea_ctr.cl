// XTEA in counter mode over pairs of words, 32 cycles, two pairs per work-item at a distance of the global size.
__kernel __attribute__((reqd_work_group_size(64, 1, 1)))
void xtea_ctr(__global const uint *key, __global uint *data, uint iv, uint pairs) {
  uint total = (uint)get_global_size(0);
  uint i = (uint)get_global_id(0);
  for (uint rep = 0u; rep < 2u; rep += 1u) {
    if (i >= pairs) return;
    uint v0 = iv;
    uint v1 = i;
    uint sum = 0u;
    for (uint c = 0u; c < 32u; c += 1u) {
      v0 += (((v1 << 4) ^ (v1 >> 5)) + v1) ^ (sum + key[sum & 3u]);
      sum += 0x9e3779b9u;
      v1 += (((v0 << 4) ^ (v0 >> 5)) + v0) ^ (sum + key[(sum >> 11) & 3u]);
    }
    data[i * 2u] ^= v0;
    data[i * 2u + 1u] ^= v1;
    i += total;
  }
}
