// Seven-point stencil on a grid of nx * ny * nz cells, border cells copied; three-dimensional launch of 8x4x2 items.
__kernel __attribute__((reqd_work_group_size(8, 4, 2)))
void stencil7_3d(__global const uint *src, __global uint *dst, uint nx, uint ny, uint nz) {
  uint x = (uint)get_global_id(0);
  uint y = (uint)get_global_id(1);
  uint z = (uint)get_global_id(2);
  if (x >= nx || y >= ny || z >= nz) return;
  uint plane = nx * ny;
  uint p = z * plane + y * nx + x;
  uint v = src[p];
  if (x > 0u && x + 1u < nx && y > 0u && y + 1u < ny && z > 0u && z + 1u < nz) {
    uint s = src[p - 1u] + src[p + 1u] + src[p - nx] + src[p + nx] + src[p - plane] + src[p + plane];
    v = (s + 2u * v) / 8u;
  }
  dst[p] = v;
}
