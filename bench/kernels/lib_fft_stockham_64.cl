// 64-point Stockham transform modulo 65537: two planes in turn, the stride doubles each stage.
__kernel __attribute__((reqd_work_group_size(32, 1, 1)))
void fft_stockham_64(__global const uint *in, __global const uint *tw, __global uint *out) {
  __local uint buf[128];
  uint lid = (uint)get_local_id(0);
  uint base = (uint)get_group_id(0) * 64u;
  buf[lid] = in[base + lid] % 65537u;
  buf[lid + 32u] = in[base + lid + 32u] % 65537u;
  uint src = 0u;
  barrier(CLK_LOCAL_MEM_FENCE);
  for (uint s = 1u; s < 64u; s <<= 1) {
    uint q = lid & (s - 1u);
    uint a = buf[src + lid];
    uint b = buf[src + lid + 32u];
    uint w = tw[lid - q] & 0xffffu;
    uint dst = src ^ 64u;
    uint o = ((lid - q) << 1) + q;
    buf[dst + o] = (a + b) % 65537u;
    buf[dst + o + s] = (a + 65537u - b) % 65537u * w % 65537u;
    src = dst;
    barrier(CLK_LOCAL_MEM_FENCE);
  }
  out[base + lid] = buf[src + lid];
  out[base + lid + 32u] = buf[src + lid + 32u];
}
