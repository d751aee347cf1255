// Replays up to 64 events per particle: a ring of 16 times per work-item in local memory, pushes refused when full.
__kernel __attribute__((reqd_work_group_size(32, 1, 1)))
void event_queue_ring(__global const uint *events, __global uint *served, __global uint *refused, uint steps_n) {
  __local uint ring[512];
  uint lid = (uint)get_local_id(0);
  uint id = (uint)get_global_id(0);
  uint head = 0u;
  uint count = 0u;
  uint sum = 0u;
  uint full = 0u;
  for (uint s = 0u; s < steps_n; s += 1u) {
    uint e = events[id * 64u + s];
    if ((e & 1u) == 0u) {
      if (count == 16u) {
        full += 1u;
        continue;
      }
      ring[((head + count) & 15u) * 32u + lid] = e >> 1;
      count += 1u;
    } else {
      if (count == 0u) continue;
      sum += ring[head * 32u + lid];
      head = (head + 1u) & 15u;
      count -= 1u;
    }
  }
  served[id] = sum;
  refused[id] = full;
}
