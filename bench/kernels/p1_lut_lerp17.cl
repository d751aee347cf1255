__kernel __attribute__((reqd_work_group_size(64, 1, 1)))
void p1_lut_lerp17(__global const uint *node, __global const uint *in, __global uint *out, uint n) {
  uint i = get_global_id(0);
  if (i >= n) return;
  uint v = in[i] & 0xffffu;
  uint seg = v >> 12;
  uint part = v & 0xfffu;
  uint a = node[seg] & 0xffffu;
  uint b = node[seg + 1u] & 0xffffu;
  out[i] = (a * (4096u - part) + b * part) >> 12;
}
