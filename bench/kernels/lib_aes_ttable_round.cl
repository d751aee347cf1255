// Ten AES-like rounds on four words by T-tables in local memory, a block per work-item, rotations by shifts.
__kernel __attribute__((reqd_work_group_size(64, 1, 1)))
void aes_ttable_round(__global const uint *te, __global const uint *rk, __global uint *state, uint blocks) {
  __local uint t[256];
  __local uint k[44];
  uint lid = (uint)get_local_id(0);
  for (uint i = lid; i < 256u; i += 64u) t[i] = te[i];
  for (uint i = lid; i < 44u; i += 64u) k[i] = rk[i];
  barrier(CLK_LOCAL_MEM_FENCE);
  uint id = (uint)get_global_id(0);
  if (id >= blocks) return;
  uint s0 = state[id * 4u] ^ k[0];
  uint s1 = state[id * 4u + 1u] ^ k[1];
  uint s2 = state[id * 4u + 2u] ^ k[2];
  uint s3 = state[id * 4u + 3u] ^ k[3];
  for (uint r = 4u; r < 44u; r += 4u) {
    uint x1 = t[(s1 >> 16) & 255u];
    uint y1 = t[(s2 >> 8) & 255u];
    uint z1 = t[s3 & 255u];
    uint n0 = t[s0 >> 24] ^ ((x1 >> 8) | (x1 << 24)) ^ ((y1 >> 16) | (y1 << 16)) ^ ((z1 >> 24) | (z1 << 8)) ^ k[r];
    x1 = t[(s2 >> 16) & 255u];
    y1 = t[(s3 >> 8) & 255u];
    z1 = t[s0 & 255u];
    uint n1 = t[s1 >> 24] ^ ((x1 >> 8) | (x1 << 24)) ^ ((y1 >> 16) | (y1 << 16)) ^ ((z1 >> 24) | (z1 << 8)) ^ k[r + 1u];
    x1 = t[(s3 >> 16) & 255u];
    y1 = t[(s0 >> 8) & 255u];
    z1 = t[s1 & 255u];
    uint n2 = t[s2 >> 24] ^ ((x1 >> 8) | (x1 << 24)) ^ ((y1 >> 16) | (y1 << 16)) ^ ((z1 >> 24) | (z1 << 8)) ^ k[r + 2u];
    x1 = t[(s0 >> 16) & 255u];
    y1 = t[(s1 >> 8) & 255u];
    z1 = t[s2 & 255u];
    s3 = t[s3 >> 24] ^ ((x1 >> 8) | (x1 << 24)) ^ ((y1 >> 16) | (y1 << 16)) ^ ((z1 >> 24) | (z1 << 8)) ^ k[r + 3u];
    s0 = n0;
    s1 = n1;
    s2 = n2;
  }
  state[id * 4u] = s0;
  state[id * 4u + 1u] = s1;
  state[id * 4u + 2u] = s2;
  state[id * 4u + 3u] = s3;
}
