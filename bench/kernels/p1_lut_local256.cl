__kernel __attribute__((reqd_work_group_size(128, 1, 1)))
void p1_lut_local256(__global const uint *table, __global const uint *in, __global uint *out, uint n) {
  __local uint lut[256];
  uint lid = get_local_id(0);
  uint i = get_global_id(0);
  for (uint k = lid; k < 256u; k += 128u) {
    lut[k] = table[k];
  }
  barrier(CLK_LOCAL_MEM_FENCE);
  if (i < n) {
    out[i] = lut[in[i] & 255u];
  }
}
