__kernel __attribute__((reqd_work_group_size(64, 1, 1)))
void p1_unpack_nibbles(__global const uint *in, __global uint *out, uint n) {
  uint i = get_global_id(0);
  if (i >= n) return;
  uint w = in[i];
  for (uint k = 0u; k < 8u; k += 1u) {
    out[i * 8u + k] = w & 15u;
    w >>= 4;
  }
}
