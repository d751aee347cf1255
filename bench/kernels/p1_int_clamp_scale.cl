__kernel __attribute__((reqd_work_group_size(64, 1, 1)))
void p1_int_clamp_scale(__global const int *in, __global int *out, int gain, int bias, int n) {
  int i = (int)get_global_id(0);
  if (i < n) {
    int v = max(min(in[i], 4096), -4096);
    out[i] = v * gain + bias;
  }
}
