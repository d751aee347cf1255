// First place in a sorted table whose key is not below the query; a query per work-item, halving by hand.
__kernel __attribute__((reqd_work_group_size(64, 1, 1)))
void lower_bound_batch(__global const uint *table, __global const uint *query, __global uint *place, uint len, uint n) {
  uint id = (uint)get_global_id(0);
  if (id >= n) return;
  uint q = query[id];
  uint lo = 0u;
  uint count = len;
  while (count > 0u) {
    uint jump = count / 2u;
    uint mid = lo + jump;
    if (table[mid] < q) {
      lo = mid + 1u;
      count = count - jump - 1u;
    } else {
      count = jump;
    }
  }
  place[id] = lo;
}
