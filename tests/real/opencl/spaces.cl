// Pointers of no named address space, asked for theirs, and variables that hold addresses of others.
global int shown;
global int *global where = &shown;
constant float weights[4] = {1.0f, 0.5f, 0.25f, 0.125f};

int told(int *any)
{
    global int *out = to_global(any);
    local int *own = to_local(any);
    private int *mine = to_private(any);
    return out ? *out : own ? *own : mine ? *mine : 0;
}

kernel void spaces(global int *out, local int *own, int at)
{
    int mine = at;
    static global int kept = 3;
    out[at] = told(out) + told(own) + told(&mine) + kept + *where;
    own[at] = get_fence(&mine) + (int)weights[at & 3];
    work_group_barrier(CLK_GLOBAL_MEM_FENCE | CLK_LOCAL_MEM_FENCE, memory_scope_device);
}
