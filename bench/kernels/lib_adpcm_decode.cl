// IMA-like ADPCM, a channel of 64 nibbles per work-item; predictor saturated, step index clamped to a table.
__kernel __attribute__((reqd_work_group_size(32, 1, 1)))
void adpcm_decode(__global const uint *code, __global const int *steps, __global int *pcm, uint channels) {
  uint ch = (uint)get_global_id(0);
  if (ch >= channels) return;
  int pred = 0;
  int index = 0;
  for (uint w = 0u; w < 8u; w += 1u) {
    uint bits = code[ch * 8u + w];
    for (uint k = 0u; k < 8u; k += 1u) {
      uint nib = bits & 15u;
      bits >>= 4;
      int st = min(max(steps[index], 0), 32767);
      int diff = st / 8;
      if ((nib & 4u) != 0u) diff += st;
      if ((nib & 2u) != 0u) diff += st / 2;
      if ((nib & 1u) != 0u) diff += st / 4;
      if ((nib & 8u) != 0u) pred -= diff; else pred += diff;
      pred = min(max(pred, -32768), 32767);
      index += (nib & 4u) != 0u ? 2 * (int)(nib & 3u) + 2 : -1;
      index = min(max(index, 0), 88);
      pcm[(ch * 8u + w) * 8u + k] = pred;
    }
  }
}
