// Vectors of several sizes: parts of them, shuffles, comparisons, conversions.
kernel void vectors(global const float4 *a, global const float4 *b, global float4 *out, global int8 *wide)
{
    const size_t at = get_global_id(0);
    const float4 x = a[at];
    const float4 y = b[at].wzyx;
    const int4 less = x < y;
    float4 z = x * y + (float4)(1.0f, 2.0f, 3.0f, 4.0f);
    z.y = y.x;
    z = less.x ? z : -z;
    wide[at] += (int8)(convert_int4(z), less);
    uchar3 small = convert_uchar3(z.xyz);
    const float4 product = x * y;
    out[at] = (float4)(z.lo, (float)small.z, z[at & 3]) * (product.x + product.w);
}
