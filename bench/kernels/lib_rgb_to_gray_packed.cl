// Luma of packed 0x00RRGGBB words, four pixels of a row packed into a word of bytes.
__kernel __attribute__((reqd_work_group_size(32, 2, 1)))
void rgb_to_gray_packed(__global const uint *rgb, __global uint *gray, uint quads, uint height, uint pitch) {
  uint q = (uint)get_global_id(0);
  uint y = (uint)get_global_id(1);
  if (q < quads && y < height) {
    uint out = 0u;
    for (uint k = 0u; k < 4u; k += 1u) {
      uint p = rgb[y * pitch + q * 4u + k];
      uint r = (p >> 16) & 255u;
      uint g = (p >> 8) & 255u;
      uint b = p & 255u;
      uint luma = (77u * r + 150u * g + 29u * b + 128u) >> 8;
      out = (out >> 8) | (luma << 24);
    }
    gray[y * quads + q] = out;
  }
}
