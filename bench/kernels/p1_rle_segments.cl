__kernel __attribute__((reqd_work_group_size(64, 1, 1)))
void p1_rle_segments(__global const uint *in, __global uint *out, __global uint *runs) {
  uint id = get_global_id(0);
  uint base = id * 16u;
  uint w = 0u;
  uint k = 0u;
  while (k < 16u) {
    uint v = in[base + k];
    uint r = 1u;
    while (k + r < 16u && in[base + k + r] == v) {
      r += 1u;
    }
    out[2u * (base + w)] = v;
    out[2u * (base + w) + 1u] = r;
    w += 1u;
    k += r;
  }
  runs[id] = w;
}
