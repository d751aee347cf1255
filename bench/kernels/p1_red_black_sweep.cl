__kernel __attribute__((reqd_work_group_size(16, 16, 1)))
void p1_red_black_sweep(__global uint *u, uint width, uint height, uint colour) {
  uint x = get_global_id(0) + 1u;
  uint y = get_global_id(1) + 1u;
  if (x > width || y > height) return;
  if (((x + y) & 1u) != colour) return;
  uint p = y * 130u + x;
  u[p] = (u[p - 1u] + u[p + 1u] + u[p - 130u] + u[p + 130u]) / 4u;
}
