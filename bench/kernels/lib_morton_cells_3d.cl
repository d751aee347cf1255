// Morton code of each cell of a brick of 4x4x4 cells, stored at x + dim * (y + dim * z) for a cube of dim cells.
__kernel __attribute__((reqd_work_group_size(4, 4, 4)))
void morton_cells_3d(__global uint *code, uint dim) {
  uint x = (uint)get_global_id(0);
  uint y = (uint)get_global_id(1);
  uint z = (uint)get_global_id(2);
  if (x >= dim || y >= dim || z >= dim) return;
  uint m = 0u;
  uint vx = x;
  uint vy = y;
  uint vz = z;
  for (uint b = 0u; b < 6u; b += 1u) {
    m = (m >> 3) | ((vx & 1u) << 15) | ((vy & 1u) << 16) | ((vz & 1u) << 17);
    vx >>= 1;
    vy >>= 1;
    vz >>= 1;
  }
  code[x + dim * (y + dim * z)] = m;
}
