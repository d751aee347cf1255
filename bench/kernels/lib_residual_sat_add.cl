// Adds two quantized tensors packed as bytes with unsigned saturation, four bytes a word, optional ReLU6-like ceiling.
__kernel __attribute__((reqd_work_group_size(64, 1, 1)))
void residual_sat_add(__global const uint *a, __global const uint *b, __global uint *c, uint words, uint ceiling) {
  uint g = (uint)get_global_id(0);
  uint i = g * 2u;
  uint stop = min(i + 2u, words);
  while (i < stop) {
    uint x = a[i];
    uint y = b[i];
    uint out = 0u;
    uint lane = 0u;
    while (lane < 4u) {
      uint s = (x & 255u) + (y & 255u);
      s = min(min(s, 255u), ceiling);
      out = (out >> 8) | (s << 24);
      x >>= 8;
      y >>= 8;
      lane += 1u;
    }
    c[i] = out;
    i += 1u;
  }
}
