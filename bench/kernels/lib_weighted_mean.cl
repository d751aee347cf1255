// Weighted mean of 16 samples per work-item; weights are bytes of packed words.
__kernel __attribute__((reqd_work_group_size(64, 1, 1)))
void weighted_mean(__global const uint *x, __global const uint *w, __global uint *mean, uint n) {
  uint id = (uint)get_global_id(0);
  if (id >= n) return;
  uint sum = 0u;
  uint weight = 0u;
  for (uint k = 0u; k < 16u; k += 1u) {
    uint packed = w[id * 4u + k / 4u];
    if ((k & 1u) != 0u) packed >>= 8;
    if ((k & 2u) != 0u) packed >>= 16;
    uint b = packed & 255u;
    sum += (x[id * 16u + k] & 0xffffu) * b;
    weight += b;
  }
  mean[id] = sum / weight;
}
