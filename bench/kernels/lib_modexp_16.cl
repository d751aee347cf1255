// base^exponent modulo a 16-bit modulus, square and multiply.
__kernel __attribute__((reqd_work_group_size(64, 1, 1)))
void modexp_16(__global const uint *base, __global const uint *expo, __global uint *out, uint modulus, uint n) {
  uint i = (uint)get_global_id(0);
  if (i >= n) return;
  uint b = base[i] % modulus;
  uint e = expo[i];
  uint r = 1u;
  while (e != 0u) {
    if ((e & 1u) == 1u) {
      r = r * b % modulus;
    }
    b = b * b % modulus;
    e >>= 1;
  }
  out[i] = r;
}
