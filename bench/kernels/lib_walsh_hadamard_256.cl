// Walsh-Hadamard transform of 256 words, four per work-item, partner by exclusive or, a barrier on both sides.
__kernel __attribute__((reqd_work_group_size(64, 1, 1)))
void walsh_hadamard_256(__global uint *data) {
  __local uint t[256];
  uint lid = (uint)get_local_id(0);
  uint base = (uint)get_group_id(0) << 8;
  for (uint k = lid; k < 256u; k += 64u) t[k] = data[base + k];
  for (uint h = 1u; h < 256u; h += h) {
    barrier(CLK_LOCAL_MEM_FENCE);
    for (uint k = lid; k < 128u; k += 64u) {
      uint i = ((k & ~(h - 1u)) << 1) | (k & (h - 1u));
      uint j = i ^ h;
      uint a = t[i];
      uint b = t[j];
      t[i] = a + b;
      t[j] = a - b;
    }
  }
  barrier(CLK_LOCAL_MEM_FENCE);
  for (uint k = lid; k < 256u; k += 64u) data[base + k] = t[k];
}
