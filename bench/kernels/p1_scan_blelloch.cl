__kernel __attribute__((reqd_work_group_size(64, 1, 1)))
void p1_scan_blelloch(__global const uint *in, __global uint *out, __global uint *totals) {
  __local uint t[128];
  uint lid = get_local_id(0);
  uint base = get_group_id(0) * 128u;
  t[2u * lid] = in[base + 2u * lid];
  t[2u * lid + 1u] = in[base + 2u * lid + 1u];
  uint dist = 1u;
  for (uint d = 64u; d > 0u; d >>= 1) {
    barrier(CLK_LOCAL_MEM_FENCE);
    if (lid < d) {
      uint ai = dist * (2u * lid + 1u) - 1u;
      uint bi = dist * (2u * lid + 2u) - 1u;
      t[bi] += t[ai];
    }
    dist *= 2u;
  }
  if (lid == 0u) {
    totals[get_group_id(0)] = t[127];
    t[127] = 0u;
  }
  for (uint d = 1u; d < 128u; d *= 2u) {
    dist >>= 1;
    barrier(CLK_LOCAL_MEM_FENCE);
    if (lid < d) {
      uint ai = dist * (2u * lid + 1u) - 1u;
      uint bi = dist * (2u * lid + 2u) - 1u;
      uint v = t[ai];
      t[ai] = t[bi];
      t[bi] += v;
    }
  }
  barrier(CLK_LOCAL_MEM_FENCE);
  out[base + 2u * lid] = t[2u * lid];
  out[base + 2u * lid + 1u] = t[2u * lid + 1u];
}
