// Probes a shared table of 2^k places for each key of a column, eight probes at most, grid stride; mask is 2^k - 1.
__kernel __attribute__((reqd_work_group_size(64, 1, 1)))
void hash_probe_shared(__global const uint *table, __global const uint *payload, __global const uint *keys,
                       __global uint *out, uint mask, uint n) {
  uint total = (uint)get_global_size(0);
  for (uint i = (uint)get_global_id(0); i < n; i += total) {
    uint key = keys[i];
    uint h = (key ^ (key >> 15)) * 0x2c1b3c6du;
    uint found = 0xffffffffu;
    for (uint p = 0u; p < 8u; p += 1u) {
      uint at = (h + p) & mask;
      uint t = table[at];
      if (t == 0u) break;
      if (t == key) {
        found = payload[at];
        break;
      }
    }
    out[i] = found;
  }
}
