// Pull on each body by all others in fixed point, bodies by tiles of 64 in local memory, distance by |dx| + |dy| + 1.
__kernel __attribute__((reqd_work_group_size(64, 1, 1)))
void nbody_tile_int(__global const int *px, __global const int *py, __global int *fx, __global int *fy, uint tiles) {
  __local int sx[64];
  __local int sy[64];
  uint lid = (uint)get_local_id(0);
  uint i = (uint)get_global_id(0);
  int x = px[i] & 4095;
  int y = py[i] & 4095;
  int ax = 0;
  int ay = 0;
  for (uint t = 0u; t < tiles; t += 1u) {
    sx[lid] = px[t * 64u + lid] & 4095;
    sy[lid] = py[t * 64u + lid] & 4095;
    barrier(CLK_LOCAL_MEM_FENCE);
    for (uint j = 0u; j < 64u; j += 1u) {
      int dx = sx[j] - x;
      int dy = sy[j] - y;
      int r = max(dx, -dx) + max(dy, -dy) + 1;
      ax = min(max(ax + dx * 256 / r, -1000000), 1000000);
      ay = min(max(ay + dy * 256 / r, -1000000), 1000000);
    }
    barrier(CLK_LOCAL_MEM_FENCE);
  }
  fx[i] = ax;
  fy[i] = ay;
}
