// printf of no value, of some, and of a text.
kernel void printing(global const int *in, global const float4 *floats)
{
    const size_t at = get_global_id(0);
    if (at == 0)
        printf("begin\n");
    printf("%d: %d %u %f\n", (int)at, in[at], (uint)in[at + 1], floats[at].x);
    for (int i = 0; i < in[at]; ++i)
        printf("%v4f %s\n", floats[at + i], "text");
}
