/* Scales points by four factors, four numbers at a time. */
__kernel void scale(__global float4 *points, float4 factors, uint n) {
  size_t i = get_global_id(0);
  if (i < n)
    points[i] = points[i] * factors;
}
