__kernel __attribute__((reqd_work_group_size(128, 1, 1)))
void p1_vec4_tail(__global const uint *a, __global const uint *b, __global uint *out, uint n) {
  uint base = get_global_id(0) * 4u;
  for (uint k = 0u; k < 4u; k += 1u) {
    uint i = base + k;
    if (i >= n) break;
    out[i] = a[i] ^ b[i];
  }
}
