__kernel __attribute__((reqd_work_group_size(64, 1, 1)))
void p1_crc32_segments(__global const uint *in, __global uint *out) {
  uint base = get_global_id(0) * 16u;
  uint crc = 0xffffffffu;
  for (uint w = 0u; w < 16u; w += 1u) {
    crc ^= in[base + w];
    for (uint b = 0u; b < 32u; b += 1u) {
      if ((crc & 1u) != 0u) {
        crc = (crc >> 1) ^ 0xedb88320u;
      } else {
        crc >>= 1;
      }
    }
  }
  out[get_global_id(0)] = ~crc;
}
