// Atomic types of the language, with orders and scopes, and a flag.
kernel void exchanged(volatile global atomic_int *count, volatile global atomic_flag *flag, global int *out,
                      volatile local atomic_uint *own, volatile global atomic_float *real)
{
    if (!atomic_flag_test_and_set_explicit(flag, memory_order_acquire, memory_scope_device)) {
        int old = atomic_load_explicit(count, memory_order_relaxed);
        while (!atomic_compare_exchange_weak(count, &old, old * 2))
            ;
        atomic_flag_clear_explicit(flag, memory_order_release, memory_scope_device);
    }
    int wanted = 3;
    out[0] = atomic_compare_exchange_strong(count, &wanted, 4) + wanted;
    out[1] = atomic_fetch_add(count, 5) + atomic_fetch_max_explicit(count, 9, memory_order_acq_rel);
    atomic_init(own, 0);
    atomic_work_item_fence(CLK_LOCAL_MEM_FENCE, memory_order_seq_cst, memory_scope_work_group);
    out[2] = atomic_fetch_xor(own, 3u);
    atomic_store(real, atomic_exchange(real, 1.5f));
}
