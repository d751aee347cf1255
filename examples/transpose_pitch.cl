// Turns an image of width columns and height rows. The rows of both images are as far apart as their pitches say.
__kernel __attribute__((reqd_work_group_size(16, 16, 1))) void transpose_pitch(__global uint *dst, __global const uint *src, uint width,
                                                                               uint height, uint dst_pitch, uint src_pitch) {
  __local uint tile[272];
  uint column = get_local_id(0);
  uint row = get_local_id(1);
  uint x = get_global_id(0);
  uint y = get_global_id(1);
  if (x < width && y < height) {
    tile[row * 17u + column] = src[y * src_pitch + x];
  }
  barrier(CLK_LOCAL_MEM_FENCE);
  x = get_group_id(1) * 16u + column;
  y = get_group_id(0) * 16u + row;
  if (x < height && y < width) {
    dst[y * dst_pitch + x] = tile[column * 17u + row];
  }
}
