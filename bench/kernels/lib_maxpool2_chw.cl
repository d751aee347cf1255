// 2x2 max pooling of planes, channel by the third dimension, output offset by plane and pitch.
__kernel __attribute__((reqd_work_group_size(16, 4, 1)))
void maxpool2_chw(__global const uint *src, __global uint *dst, uint ow, uint oh, uint pitch) {
  uint x = (uint)get_global_id(0);
  uint y = (uint)get_global_id(1);
  uint ch = (uint)get_global_id(2);
  if (x < ow && y < oh) {
    uint from = ch * 65536u + 2u * y * pitch + 2u * x;
    uint m = max(src[from], src[from + 1u]);
    m = max(m, max(src[from + pitch], src[from + pitch + 1u]));
    dst[ch * 16384u + y * ow + x] = m;
  }
}
