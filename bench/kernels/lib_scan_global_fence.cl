// Up-sweep of a scan over 128 words per group directly in the buffer, barriers with the fence of local memory.
__kernel __attribute__((reqd_work_group_size(64, 1, 1)))
void scan_global_fence(__global uint *data, uint rounds) {
  uint lid = (uint)get_local_id(0);
  uint base = (uint)get_group_id(0) * 128u;
  uint stride = 1u;
  uint active = 64u;
  for (uint r = 0u; r < rounds; r += 1u) {
    if (lid < active) {
      uint hi = base + (lid + 1u) * 2u * stride - 1u;
      data[hi] += data[hi - stride];
    }
    barrier(CLK_LOCAL_MEM_FENCE);
    stride *= 2u;
    active /= 2u;
  }
}
