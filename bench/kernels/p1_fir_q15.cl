__kernel __attribute__((reqd_work_group_size(64, 1, 1)))
void p1_fir_q15(__global const int *x, __global const int *coef, __global int *y, int n) {
  int i = (int)get_global_id(0);
  if (i >= n) return;
  int acc = 0;
  for (int t = 0; t < 16; t += 1) {
    int s = 0;
    if (i >= t) {
      s = max(min(x[i - t], 2047), -2048);
    }
    int c = max(min(coef[t], 32767), -32768);
    acc += s * c;
  }
  y[i] = acc / 32768;
}
