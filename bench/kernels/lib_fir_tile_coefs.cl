// FIR filter of up to 32 taps over a signal, coefficients and samples of a group in local memory, zero before the start.
__kernel __attribute__((reqd_work_group_size(64, 1, 1)))
void fir_tile_coefs(__global const uint *x, __global const uint *h, __global uint *y, uint n, uint taps) {
  __local uint hs[32];
  __local uint xs[96];
  uint lid = (uint)get_local_id(0);
  uint first = (uint)get_group_id(0) * 64u;
  if (lid < taps) hs[lid] = h[lid];
  for (uint k = lid; k < 96u; k += 64u) {
    uint p = first + k;
    xs[k] = (p >= 32u && p - 32u < n) ? x[p - 32u] : 0u;
  }
  barrier(CLK_LOCAL_MEM_FENCE);
  if (first + lid < n) {
    uint acc = 0u;
    for (uint t = 0u; t < taps; t += 1u) {
      acc += hs[t] * xs[lid + 32u - t];
    }
    y[first + lid] = acc;
  }
}
