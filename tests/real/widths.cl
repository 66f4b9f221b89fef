// Numbers of 8, 16 and 64 bits, half and double, with constants of two words and conversions.
#pragma OPENCL EXTENSION cl_khr_fp16 : enable
#pragma OPENCL EXTENSION cl_khr_fp64 : enable

kernel void widths(global const long *longs, global const half *halves, global double *out, global char *chars)
{
    const size_t at = get_global_id(0);
    const ulong wide = (ulong)longs[at] * 0x9e3779b97f4a7c15ul;
    const half small = halves[at] * (half)1.5f;
    const double big = (double)small + 3.141592653589793 * (double)longs[at];
    const short narrow = (short)(wide >> 48);
    chars[at] = (char)(narrow ^ (short)7);
    out[at] = big > 1e300 ? (double)wide : big / (double)narrow;
    out[at + 1] = as_double(wide);
}
