__kernel __attribute__((reqd_work_group_size(64, 1, 1))) void fill(__global uint *a, uint n) {
  for (uint i = get_global_id(0); i < n; i += 1024u)
    a[i] = 0u;
}
