// Functions of OpenCL.std on floats and ints, of one component and of several, some of which write through a pointer.
kernel void maths(global const float4 *a, global const int4 *b, global float4 *out, global int4 *whole,
                  global float *parts)
{
    const size_t at = get_global_id(0);
    const float4 x = a[at];
    const float s = x.x;
    float rest, other;
    float4 whole_parts;
    int power;
    const float whole_part = modf(s, &rest);
    const float sine = sincos(s, &other);
    const float half_of = frexp(s, &power);
    out[at] = fma(sqrt(x), clamp(x, 0.0f, 1.0f), mix(x, x.wzyx, 0.5f)) + native_exp(x) + pow(fabs(x), x.yxwz);
    out[at + 1] = (float4)(whole_part + rest, sine * other, ldexp(half_of, power), hypot(s, x.y));
    out[at + 2] = normalize(x) * fract(x, &whole_parts) + cross(x, x.yzxw) + fmax(x, ceil(x)) - rsqrt(fabs(x));
    whole[at] = mad_hi(b[at], b[at].wzyx, clamp(b[at], -7, 7)) + rotate(b[at], b[at].yxwz) + clz(b[at]);
    whole[at + 1] = as_int4(abs_diff(b[at], b[at].wzyx)) + max(b[at], 3) + mul_hi(b[at], b[at].yxwz);
    parts[at] = length(x) + distance(x, x.wzyx) + select(s, x.y, b[at].x) + degrees(s) + sign(x.z) + step(s, x.w);
}
