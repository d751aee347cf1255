// Adds 16 keys to an open-addressing table of 32 places per work-item, cleared or filled by earlier calls; linear probing.
__kernel __attribute__((reqd_work_group_size(64, 1, 1)))
void hash_build_private(__global const uint *keys, __global uint *slots, __global uint *lost, uint n) {
  uint id = (uint)get_global_id(0);
  if (id >= n) return;
  uint base = id * 32u;
  uint dropped = 0u;
  for (uint k = 0u; k < 16u; k += 1u) {
    uint key = keys[id * 16u + k] | 1u;
    uint h = key * 2654435769u >> 27;
    uint probes = 0u;
    while (probes < 32u) {
      uint seen = slots[base + h];
      if (seen == key) break;
      if (seen == 0u) {
        slots[base + h] = key;
        break;
      }
      h = (h + 1u) & 31u;
      probes += 1u;
    }
    if (probes == 32u) dropped += 1u;
  }
  lost[id] = dropped;
}
