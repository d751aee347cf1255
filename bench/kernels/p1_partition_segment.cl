__kernel __attribute__((reqd_work_group_size(64, 1, 1)))
void p1_partition_segment(__global const uint *in, __global uint *out, __global uint *split, uint pivot) {
  uint base = get_global_id(0) * 16u;
  uint lo = 0u;
  uint hi = 16u;
  for (uint k = 0u; k < 16u; k += 1u) {
    uint v = in[base + k];
    if (v < pivot) {
      out[base + lo] = v;
      lo += 1u;
    } else {
      hi -= 1u;
      out[base + hi] = v;
    }
  }
  split[get_global_id(0)] = lo;
}
