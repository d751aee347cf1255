// Fills a buffer, in the plain language.
__kernel __attribute__((reqd_work_group_size(64, 1, 1))) void fill(__global uint *a, uint word) {
  a[get_global_id(0)] = word;
}
