__kernel __attribute__((reqd_work_group_size(64, 1, 1)))
void p1_validate_records(__global const uint *rec, __global uint *status, uint n) {
  uint i = get_global_id(0);
  if (i >= n) return;
  uint kind = rec[i * 4u];
  if (kind == 0u) {
    status[i] = 0u;
    return;
  }
  uint size = rec[i * 4u + 1u];
  if (size > 64u) {
    status[i] = 2u;
    return;
  }
  uint check = rec[i * 4u + 2u] ^ rec[i * 4u + 3u];
  if (check != kind * 2654435761u + size) {
    status[i] = 3u;
    return;
  }
  status[i] = 1u;
}
