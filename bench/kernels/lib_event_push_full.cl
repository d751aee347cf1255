// Collects the places of up to 16 words above a limit per work-item in columns of local memory, and writes the counts.
__kernel __attribute__((reqd_work_group_size(32, 1, 1)))
void event_push_full(__global const uint *data, __global uint *first, __global uint *counts, uint limit) {
  __local uint q[512];
  uint lid = (uint)get_local_id(0);
  uint id = (uint)get_global_id(0);
  uint count = 0u;
  for (uint k = 0u; k < 24u; k += 1u) {
    if (count > 16u) break;
    if (data[id * 24u + k] > limit) {
      q[count * 32u + lid] = k;
      count += 1u;
    }
  }
  counts[id] = count;
  first[id] = (count > 0u) ? q[lid] : 24u;
}
