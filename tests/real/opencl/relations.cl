// Tests of floats, by component and as a whole, and choices by them.
kernel void scalars(global int *out, float one, float two, double wide)
{
    int found = isnan(one) + isinf(two) * 2 + isfinite(wide) * 4 + isnormal(one) * 8 + signbit(wide) * 16;
    found += isordered(one, two) * 32 + isunordered(wide, wide) * 64 + islessgreater(one, two) * 128;
    out[get_global_id(0)] = found + isequal(one, two) + isgreater(wide, 2.0);
}

kernel void vectors(global int4 *out, float4 one, float4 two, double2 wide)
{
    int4 found = isnan(one) + isinf(two) + isfinite(one) + isnormal(two) + signbit(one);
    found += isordered(one, two) + isunordered(one, two) + islessgreater(one, two) + islessequal(one, two);
    found.xy += convert_int2(isnan(wide));
    out[0] = select(found, -found, one < two);
    out[1] = any(found) + 2 * all(found) + any(found.s0) + bitselect(found, (int4)(5), (int4)(3));
}
