__kernel __attribute__((reqd_work_group_size(64, 1, 1)))
void p1_hash_rows_int(__global const uint *text, __global int *hash, int len, int rows) {
  int row = (int)get_global_id(0);
  if (row >= rows) return;
  int h = 7;
  for (int k = 0; k < len; k += 1) {
    int c = (int)(text[row * 16 + k] & 255u);
    h = h * 31 + c;
  }
  hash[row] = h;
}
