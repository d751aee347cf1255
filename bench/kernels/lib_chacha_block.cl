// ChaCha20 block: 16 words of state in registers, ten double rounds, a block of key stream per work-item.
__kernel __attribute__((reqd_work_group_size(64, 1, 1)))
void chacha_block(__global const uint *key, __global uint *out, uint counter, uint nonce, uint blocks) {
  uint id = (uint)get_global_id(0);
  if (id >= blocks) return;
  uint a0 = 0x61707865u;
  uint a1 = 0x3320646eu;
  uint a2 = 0x79622d32u;
  uint a3 = 0x6b206574u;
  uint b0 = key[0];
  uint b1 = key[1];
  uint b2 = key[2];
  uint b3 = key[3];
  uint c0 = key[4];
  uint c1 = key[5];
  uint c2 = key[6];
  uint c3 = key[7];
  uint d0 = counter + id;
  uint d1 = nonce;
  uint d2 = nonce ^ 0xffffffffu;
  uint d3 = 0u;
  for (uint r = 0u; r < 20u; r += 1u) {
    a0 += b0; d0 ^= a0; d0 = (d0 << 16) | (d0 >> 16);
    a1 += b1; d1 ^= a1; d1 = (d1 << 16) | (d1 >> 16);
    a2 += b2; d2 ^= a2; d2 = (d2 << 16) | (d2 >> 16);
    a3 += b3; d3 ^= a3; d3 = (d3 << 16) | (d3 >> 16);
    c0 += d0; b0 ^= c0; b0 = (b0 << 12) | (b0 >> 20);
    c1 += d1; b1 ^= c1; b1 = (b1 << 12) | (b1 >> 20);
    c2 += d2; b2 ^= c2; b2 = (b2 << 12) | (b2 >> 20);
    c3 += d3; b3 ^= c3; b3 = (b3 << 12) | (b3 >> 20);
    a0 += b0; d0 ^= a0; d0 = (d0 << 8) | (d0 >> 24);
    a1 += b1; d1 ^= a1; d1 = (d1 << 8) | (d1 >> 24);
    a2 += b2; d2 ^= a2; d2 = (d2 << 8) | (d2 >> 24);
    a3 += b3; d3 ^= a3; d3 = (d3 << 8) | (d3 >> 24);
    c0 += d0; b0 ^= c0; b0 = (b0 << 7) | (b0 >> 25);
    c1 += d1; b1 ^= c1; b1 = (b1 << 7) | (b1 >> 25);
    c2 += d2; b2 ^= c2; b2 = (b2 << 7) | (b2 >> 25);
    c3 += d3; b3 ^= c3; b3 = (b3 << 7) | (b3 >> 25);
    uint t = b0;
    b0 = b1; b1 = b2; b2 = b3; b3 = t;
    t = c0; c0 = c2; c2 = t;
    t = c1; c1 = c3; c3 = t;
    t = d3;
    d3 = d2; d2 = d1; d1 = d0; d0 = t;
  }
  uint o = id * 16u;
  out[o] = a0; out[o + 1u] = a1; out[o + 2u] = a2; out[o + 3u] = a3;
  out[o + 4u] = b0; out[o + 5u] = b1; out[o + 6u] = b2; out[o + 7u] = b3;
  out[o + 8u] = c0; out[o + 9u] = c1; out[o + 10u] = c2; out[o + 11u] = c3;
  out[o + 12u] = d0; out[o + 13u] = d1; out[o + 14u] = d2; out[o + 15u] = d3;
}
