// CRC-32 of blocks of 16 words, a block per work-item; the table of 256 words is first copied to local memory.
__kernel __attribute__((reqd_work_group_size(64, 1, 1)))
void crc32_table_local(__global const uint *data, __global const uint *table, __global uint *crc, uint blocks) {
  __local uint t[256];
  uint lid = (uint)get_local_id(0);
  uint id = (uint)get_global_id(0);
  if (id >= blocks) return;
  for (uint k = lid; k < 256u; k += 64u) {
    t[k] = table[k];
  }
  barrier(CLK_LOCAL_MEM_FENCE);
  uint c = 0xffffffffu;
  for (uint w = 0u; w < 16u; w += 1u) {
    uint v = data[id * 16u + w];
    c = t[(c ^ v) & 255u] ^ (c >> 8);
    c = t[(c ^ (v >> 8)) & 255u] ^ (c >> 8);
    c = t[(c ^ (v >> 16)) & 255u] ^ (c >> 8);
    c = t[(c ^ (v >> 24)) & 255u] ^ (c >> 8);
  }
  crc[id] = ~c;
}
