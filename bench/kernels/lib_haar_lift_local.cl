// Haar lifting of 128 samples per work-group, strides that double; sums and differences modulo 2^32.
__kernel __attribute__((reqd_work_group_size(64, 1, 1)))
void haar_lift_local(__global const uint *src, __global uint *dst, uint levels) {
  __local uint s[128];
  uint lid = (uint)get_local_id(0);
  uint base = (uint)get_group_id(0) * 128u;
  s[lid] = src[base + lid];
  s[lid + 64u] = src[base + lid + 64u];
  barrier(CLK_LOCAL_MEM_FENCE);
  uint stride = 1u;
  for (uint l = 0u; l < levels; l += 1u) {
    uint i = lid * 2u * stride;
    if (i + stride < 128u) {
      uint even = s[i];
      uint odd = s[i + stride];
      s[i + stride] = odd - even;
      s[i] = even + ((odd - even) >> 1);
    }
    stride <<= 1;
    barrier(CLK_LOCAL_MEM_FENCE);
  }
  dst[base + lid] = s[lid];
  dst[base + lid + 64u] = s[lid + 64u];
}
