/* Makes the pixels of a picture brighter, as people write it: 8 bits a pixel, and no size of a work-group. */
kernel void brighten(global uchar *pixels, const char amount, const int width, const int height) {
  const int x = get_global_id(0), y = get_global_id(1);
  if (x >= width || y >= height)
    return;
  const int at = y * width + x;
  const int sum = pixels[at] + amount;
  pixels[at] = sum > 255 ? 255 : sum < 0 ? 0 : sum;
}
