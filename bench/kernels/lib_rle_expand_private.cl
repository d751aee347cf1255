// Expands pairs of run length and value, one stream of 16 pairs per work-item into 64 words of room.
__kernel __attribute__((reqd_work_group_size(64, 1, 1)))
void rle_expand_private(__global const uint *pairs, __global uint *out, __global uint *used, uint streams) {
  uint id = (uint)get_global_id(0);
  if (id >= streams) return;
  uint src = id * 32u;
  uint dst = id * 64u;
  uint room = 64u;
  for (uint p = 0u; p < 16u; p += 1u) {
    uint run = pairs[src];
    uint value = pairs[src + 1u];
    src += 2u;
    if (run == 0u) continue;
    if (run > room) break;
    room -= run;
    while (run > 0u) {
      out[dst] = value;
      dst += 1u;
      run -= 1u;
    }
  }
  used[id] = 64u - room;
}
