// Switches over 32-bit and 64-bit selectors, with cases that fall through.
kernel void choice(global const int *in, global int *out, long wide)
{
    const size_t at = get_global_id(0);
    int value = in[at];
    switch (value) {
    case -7:
        value = 1;
        break;
    case 0:
        value += 2;
    case 3:
        value *= (int)at;
        break;
    case 100000:
        out[at] = 0;
        return;
    default:
        value = -value;
    }
    switch (wide) {
    case 0x100000000L:
        value += 5;
        break;
    case -1L:
        value -= in[at + 1];
        break;
    }
    out[at] = value;
}
