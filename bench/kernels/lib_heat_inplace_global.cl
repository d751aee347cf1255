// One red and one black half step of a heat equation on a rod, in place; a barrier between the halves.
__kernel __attribute__((reqd_work_group_size(64, 1, 1)))
void heat_inplace_global(__global uint *u) {
  uint i = (uint)get_global_id(0) * 2u;
  uint left = (i == 0u) ? 0u : u[i - 1u];
  u[i] = (left + u[i + 1u]) >> 1;
  barrier(CLK_GLOBAL_MEM_FENCE);
  uint right = (i + 2u < (uint)get_global_size(0) * 2u) ? u[i + 2u] : 0u;
  u[i + 1u] = (u[i] + right) >> 1;
}
