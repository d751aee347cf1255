__kernel __attribute__((reqd_work_group_size(8, 8, 1))) void cells(__global uint *cells) {
  cells[get_global_id(1) * 256u + get_global_id(0)] = get_local_id(1) * 8u + get_local_id(0);
}
