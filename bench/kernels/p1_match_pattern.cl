__kernel __attribute__((reqd_work_group_size(64, 1, 1)))
void p1_match_pattern(__global const uint *text, __global const uint *pat, __global uint *hit, uint n, uint plen) {
  uint i = get_global_id(0);
  if (i + plen > n) return;
  uint same = 1u;
  for (uint k = 0u; k < plen; k += 1u) {
    if (text[i + k] != pat[k]) {
      same = 0u;
      break;
    }
  }
  hit[i] = same;
}
