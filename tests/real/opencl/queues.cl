// Kernels that kernels enqueue: blocks with what they hold, events, memory of a group, and what is asked of them.
kernel void enqueued(global int *out, int count)
{
    queue_t queue = get_default_queue();
    clk_event_t begun = create_user_event(), ended;
    ndrange_t range = ndrange_1D(count);
    void (^work)(void) = ^{ out[get_global_id(0)] += count; };
    size_t sizes[2] = {4, 4};
    int status = enqueue_kernel(queue, CLK_ENQUEUE_FLAGS_NO_WAIT, range, work);
    status += enqueue_kernel(queue, CLK_ENQUEUE_FLAGS_WAIT_KERNEL, range, 1, &begun, &ended, ^{ out[0] = 7; });
    status += enqueue_kernel(queue, 0, ndrange_2D(sizes), ^(local void *own) {
        ((local int *)own)[get_local_id(0)] = count;
        out[1] = ((local int *)own)[0];
    }, (uint)(count * 4));
    status += enqueue_marker(queue, 1, &ended, &begun);
    set_user_event_status(begun, CL_COMPLETE);
    if (is_valid_event(ended))
        capture_event_profiling_info(ended, CLK_PROFILING_COMMAND_EXEC_TIME, out + 2);
    retain_event(ended);
    release_event(ended);
    out[4] = status + get_kernel_work_group_size(work) + get_kernel_preferred_work_group_size_multiple(work);
    out[5] = get_kernel_sub_group_count_for_ndrange(range, work);
    out[6] = get_kernel_max_sub_group_size_for_ndrange(range, work);
}
