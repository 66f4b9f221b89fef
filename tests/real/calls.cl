// A chain of calls of functions that are not inlined, with pointers and vectors passed on.
__attribute__((noinline)) static int third(global int *at, int amount)
{
    *at += amount;
    return *at;
}

__attribute__((noinline)) int second(global int *at, int2 amounts)
{
    return amounts.x > 0 ? third(at, amounts.x) : third(at + 1, amounts.y);
}

__attribute__((noinline)) void first(global int *values, int count)
{
    for (int i = 0; i < count; ++i)
        values[i] = second(values + i, (int2)(i, values[i]));
}

kernel void calls(global int *values, int count)
{
    first(values, count);
    first(values + count, count / 2);
}

kernel void other(global int *values)
{
    calls(values, 4);
}
