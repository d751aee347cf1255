// out := transpose of in, 32x32 tiles by 32x2 work-items, rows of 33 words against bank conflicts.
__kernel __attribute__((reqd_work_group_size(32, 2, 1)))
void transpose_pad33(__global const uint *in, __global uint *out, uint width, uint height) {
  __local uint tile[1056];
  uint tx = (uint)get_local_id(0);
  uint ty = (uint)get_local_id(1);
  uint x = (uint)get_group_id(0) * 32u + tx;
  uint y0 = (uint)get_group_id(1) * 32u;
  for (uint j = ty; j < 32u; j += 2u) {
    if (x < width && y0 + j < height) {
      tile[j * 33u + tx] = in[(y0 + j) * width + x];
    }
  }
  barrier(CLK_LOCAL_MEM_FENCE);
  uint ox = y0 + tx;
  uint oy0 = (uint)get_group_id(0) * 32u;
  for (uint j = ty; j < 32u; j += 2u) {
    if (ox < height && oy0 + j < width) {
      out[(oy0 + j) * height + ox] = tile[tx * 33u + j];
    }
  }
}
