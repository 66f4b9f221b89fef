// What the invocations of a group find together.
kernel void together(global int *out, global float *real, global ulong *wide)
{
    int at = get_global_id(0);
    if (work_group_all(out[at] > 3) || work_group_any(out[at] < 0))
        out[at] = work_group_broadcast(out[at], 0);
    out[at] += work_group_reduce_add(at) + work_group_scan_exclusive_max(at) + work_group_scan_inclusive_min(at);
    real[at] = work_group_reduce_max(real[at]) + work_group_scan_inclusive_add(real[at]) + work_group_reduce_min(real[at]);
    wide[at] = work_group_reduce_max(wide[at]) + work_group_broadcast(wide[at], 1, 2, 3) + work_group_reduce_min(wide[at]);
}
