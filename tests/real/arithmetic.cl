// Straight arithmetic on integers of one width: no branch, no call.
kernel void arithmetic(global const uint *a, global const uint *b, global uint *out)
{
    const size_t at = get_global_id(0);
    const uint x = a[at];
    const uint y = b[at] | 1u;
    const int z = (int)x - (int)y;
    out[at] = (x + y) * (x - y) ^ (x / y) ^ (y % (x | 3u)) ^ (x << (y & 31u)) ^ (uint)(z >> 3) ^ ~y;
}
