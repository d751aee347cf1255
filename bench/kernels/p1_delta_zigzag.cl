__kernel __attribute__((reqd_work_group_size(64, 1, 1)))
void p1_delta_zigzag(__global const uint *in, __global uint *out) {
  uint base = get_global_id(0) * 16u;
  uint prev = 0u;
  for (uint k = 0u; k < 16u; k += 1u) {
    uint v = in[base + k];
    uint d = v - prev;
    out[base + k] = (d << 1) ^ (0u - (d >> 31));
    prev = v;
  }
}
