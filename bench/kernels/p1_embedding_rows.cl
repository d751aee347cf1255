__kernel __attribute__((reqd_work_group_size(64, 1, 1)))
void p1_embedding_rows(__global const uint *table, __global const uint *tokens, __global uint *out, uint vocab) {
  uint t = get_group_id(0);
  uint d = get_local_id(0);
  uint row = min(tokens[t], vocab - 1u);
  out[t * 64u + d] = table[row * 64u + d];
}
