// out[i] := table[clamp(map[i])], two elements per work-item, signed positions.
__kernel __attribute__((reqd_work_group_size(64, 1, 1)))
void gather_clamped(__global const int *map, __global const uint *table, __global uint *out, int n, int room) {
  int i = (int)((uint)get_group_id(0) * 128u + (uint)get_local_id(0));
  if (i < n) {
    int p = min(max(map[i], 0), room - 1);
    out[i] = table[p];
  }
  i += 64;
  if (i < n) {
    int p = min(max(map[i], 0), room - 1);
    out[i] = table[p];
  }
}
