// Vectors that are loaded and stored by their numbers, halves too, in some ways of rounding; shuffles by a mask, prefetch.
kernel void loads(global const float *in, global float *out, global const half *halves, global half *made,
                  local int *part)
{
    const size_t at = get_global_id(0);
    const float4 x = vload4(at, in);
    const float3 y = vload3(at, in);
    vstore4(x.wzyx, at, out);
    vstore3(y.zyx, at + 16, out);
    vstore16(vload16(at, in), at, out + 256);
    const float4 z = vload_half4(at, halves) + vloada_half4(at, halves) + vload_half(at, halves);
    vstore_half(z.x, at, made);
    vstore_half_rtz(z.y, at + 1, made);
    vstore_half4(z, at, made + 64);
    vstore_half2_rte(z.lo, at, made + 128);
    vstorea_half4(z, at, made + 192);
    vstorea_half4_rtp(z, at, made + 256);
    const uint4 mask = (uint4)(3, 2, 1, 0);
    vstore4(shuffle(x, mask), at, out + 512);
    vstore4(shuffle2(x, z, mask + 2u), at, out + 768);
    prefetch(in + at, 16);
    vstore2(vload2(at, part).yx, at, part);
}
