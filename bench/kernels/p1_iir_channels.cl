__kernel __attribute__((reqd_work_group_size(64, 1, 1)))
void p1_iir_channels(__global const int *x, __global int *y, __global int *state,
                     int b0, int a1, int frames, int channels) {
  int ch = (int)get_global_id(0);
  if (ch >= channels) return;
  int prev = max(min(state[ch], 32767), -32768);
  for (int t = 0; t < frames; t += 1) {
    int p = t * 256 + ch;
    int s = max(min(x[p], 32767), -32768);
    prev = (b0 * s + a1 * prev) / 16384;
    prev = max(min(prev, 32767), -32768);
    y[p] = prev;
  }
  state[ch] = prev;
}
