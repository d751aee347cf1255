// Sorts 128 keys per work-group by a bitonic network; each of 64 work-items does one exchange per stage.
__kernel __attribute__((reqd_work_group_size(64, 1, 1)))
void bitonic_sort_128(__global uint *keys) {
  __local uint t[128];
  uint lid = (uint)get_local_id(0);
  uint base = (uint)get_group_id(0) * 128u;
  for (uint i = lid; i < 128u; i += 64u) {
    t[i] = keys[base + i];
  }
  barrier(CLK_LOCAL_MEM_FENCE);
  for (uint size = 2u; size <= 128u; size <<= 1) {
    barrier(CLK_LOCAL_MEM_FENCE);
    for (uint stride = size / 2u; stride > 0u; stride >>= 1) {
      uint low = 2u * lid - (lid & (stride - 1u));
      uint x = t[low];
      uint y = t[low + stride];
      uint up = low & size;
      if ((up == 0u && x > y) || (up != 0u && x < y)) {
        t[low] = y;
        t[low + stride] = x;
      }
      barrier(CLK_LOCAL_MEM_FENCE);
    }
  }
  for (uint i = lid; i < 128u; i += 64u) {
    keys[base + i] = t[i];
  }
}
