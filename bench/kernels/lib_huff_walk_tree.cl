// Decodes up to 16 symbols from 64 bits per work-item by walking a tree of 512 nodes; links masked, depth limited.
__kernel __attribute__((reqd_work_group_size(64, 1, 1)))
void huff_walk_tree(__global const uint *bits, __global const uint *tree, __global uint *sym, uint streams) {
  uint id = (uint)get_global_id(0);
  if (id >= streams) return;
  uint pos = 0u;
  uint node = 0u;
  uint n = 0u;
  uint word = bits[id * 2u];
  while (pos < 64u) {
    if (pos == 32u) word = bits[id * 2u + 1u];
    node = tree[(node & 255u) * 2u + (word & 1u)];
    word >>= 1;
    pos += 1u;
    if ((node & 0x80000000u) == 0u) continue;
    sym[id * 16u + n] = node & 0x7fffffffu;
    node = 0u;
    n += 1u;
    if (n == 16u) break;
  }
  for (uint k = n; k < 16u; k += 1u) {
    sym[id * 16u + k] = 0u;
  }
}
