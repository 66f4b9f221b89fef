// Atomic operations on global and local memory, and barriers.
kernel void atomics(global const uint *in, volatile global uint *histogram, volatile global int *most, local uint *part)
{
    const size_t own = get_local_id(0);
    part[own] = in[get_global_id(0)];
    barrier(CLK_LOCAL_MEM_FENCE);
    for (size_t step = get_local_size(0) / 2; step > 0; step /= 2) {
        if (own < step)
            part[own] += part[own + step];
        barrier(CLK_LOCAL_MEM_FENCE | CLK_GLOBAL_MEM_FENCE);
    }
    atomic_inc(&histogram[part[own] & 255u]);
    atomic_add(&histogram[256], part[own]);
    atomic_max(most, (int)part[own]);
    atomic_xchg(&histogram[257], atomic_cmpxchg(&histogram[258], 0u, 1u));
    mem_fence(CLK_GLOBAL_MEM_FENCE);
}
