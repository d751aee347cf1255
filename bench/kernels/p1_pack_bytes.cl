__kernel __attribute__((reqd_work_group_size(128, 1, 1)))
void p1_pack_bytes(__global const uint *in, __global uint *out, uint n) {
  uint i = get_global_id(0);
  if (i < n) {
    uint p = i * 4u;
    out[i] = (in[p] & 255u) | ((in[p + 1u] & 255u) << 8) | ((in[p + 2u] & 255u) << 16) | (in[p + 3u] << 24);
  }
}
