// Products, counts of bits, and conversions that saturate.
kernel void products(global float *out, float4 one, float4 two, double3 wide, half2 small)
{
    out[0] = dot(one, two) + dot(one.xy, two.zw) + (float)dot(wide, wide);
    *(global float4 *)(out + 4) = one * out[1];
    *(global double3 *)(out + 8) = wide * wide.y;
}

kernel void counts(global uint *out, uint one, uint4 two, ulong wide, char small)
{
    out[0] = popcount(one) + popcount(small) + (uint)popcount(wide);
    *(global uint4 *)(out + 4) = popcount(two);
    out[1] = mad_sat(one, one, 7u) + (uint)upsample(small, (uchar)small);
}

kernel void saturated(global int *out, float one, long wide, uint4 several)
{
    out[0] = convert_int_sat(one) + convert_char_sat(wide) + convert_ushort_sat(one) + convert_uchar_sat(wide);
    *(global int4 *)(out + 4) = convert_int4_sat(several) + convert_int4(convert_char4_sat(several));
    *(global uint4 *)(out + 8) = convert_uint4_sat(*(global int4 *)(out + 12));
    out[1] = convert_int_sat_rte(one) + convert_int_rtz(one);
    *(global ulong *)(out + 2) = convert_ulong_sat(wide);
}
