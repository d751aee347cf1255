// SHA-256 message schedule and compression, a block of 16 words per work-item, schedule in a local ring of 16 words.
__kernel __attribute__((reqd_work_group_size(32, 1, 1)))
void sha256_schedule_local(__global const uint *msg, __global const uint *kt, __global uint *digest, uint blocks) {
  __local uint w[512];
  uint lid = (uint)get_local_id(0);
  uint id = (uint)get_global_id(0);
  if (id >= blocks) return;
  for (uint i = 0u; i < 16u; i += 1u) {
    w[i * 32u + lid] = msg[id * 16u + i];
  }
  uint a = 0x6a09e667u;
  uint b = 0xbb67ae85u;
  uint c = 0x3c6ef372u;
  uint d = 0xa54ff53au;
  uint e = 0x510e527fu;
  uint f = 0x9b05688cu;
  uint g = 0x1f83d9abu;
  uint h = 0x5be0cd19u;
  for (uint i = 0u; i < 64u; i += 1u) {
    uint cur = w[(i & 15u) * 32u + lid];
    if (i >= 16u) {
      uint w1 = w[((i + 1u) & 15u) * 32u + lid];
      uint w14 = w[((i + 14u) & 15u) * 32u + lid];
      uint s0 = ((w1 >> 7) | (w1 << 25)) ^ ((w1 >> 18) | (w1 << 14)) ^ (w1 >> 3);
      uint s1 = ((w14 >> 17) | (w14 << 15)) ^ ((w14 >> 19) | (w14 << 13)) ^ (w14 >> 10);
      cur += s0 + w[((i + 9u) & 15u) * 32u + lid] + s1;
      w[(i & 15u) * 32u + lid] = cur;
    }
    uint big1 = ((e >> 6) | (e << 26)) ^ ((e >> 11) | (e << 21)) ^ ((e >> 25) | (e << 7));
    uint t1 = h + big1 + ((e & f) ^ (~e & g)) + kt[i] + cur;
    uint big0 = ((a >> 2) | (a << 30)) ^ ((a >> 13) | (a << 19)) ^ ((a >> 22) | (a << 10));
    uint t2 = big0 + ((a & b) ^ (a & c) ^ (b & c));
    h = g;
    g = f;
    f = e;
    e = d + t1;
    d = c;
    c = b;
    b = a;
    a = t1 + t2;
  }
  digest[id * 4u] = a;
  digest[id * 4u + 1u] = b ^ e;
  digest[id * 4u + 2u] = c ^ f;
  digest[id * 4u + 3u] = d ^ g ^ h;
}
