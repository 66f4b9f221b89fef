// What the invocations of a subgroup find together, vote on, and hand one another.
#pragma OPENCL EXTENSION cl_khr_subgroups : enable

kernel void together(global int *out, global float *real, global uint *word)
{
    int at = get_global_id(0);
    out[at] = sub_group_all(out[at]) + sub_group_any(at) + sub_group_broadcast(at, 1);
    out[at] += sub_group_reduce_add(at) + sub_group_scan_exclusive_max(at) + sub_group_scan_inclusive_min(at);
    real[at] = sub_group_reduce_max(real[at]) + sub_group_scan_inclusive_add(real[at]);
    word[at] = sub_group_reduce_max(word[at]) + get_sub_group_size() + get_sub_group_local_id();
    sub_group_barrier(CLK_LOCAL_MEM_FENCE);
}

kernel void ballots(global uint4 *votes, global int *out)
{
    int at = get_global_id(0);
    uint4 vote = sub_group_ballot(out[at] > 3);
    votes[at] = vote;
    out[at] = sub_group_ballot_bit_count(vote) + sub_group_ballot_find_lsb(vote) + sub_group_ballot_find_msb(vote);
    out[at] += sub_group_inverse_ballot(vote) + sub_group_ballot_bit_extract(vote, 3) + sub_group_elect();
    out[at] += sub_group_ballot_inclusive_scan(vote) + sub_group_broadcast_first(at);
    out[at] += sub_group_non_uniform_all(at) + sub_group_non_uniform_any(at) + sub_group_non_uniform_all_equal(at);
}

kernel void shuffles(global float *real, global int *out)
{
    int at = get_global_id(0);
    real[at] = sub_group_shuffle(real[at], 3) + sub_group_shuffle_xor(real[at], 1);
    out[at] = sub_group_shuffle_up(at, 1) + sub_group_shuffle_down(at, 2);
}

kernel void reductions(global int *out, global float *real)
{
    int at = get_global_id(0);
    out[at] = sub_group_non_uniform_reduce_add(at) + sub_group_non_uniform_scan_inclusive_mul(at);
    out[at] += sub_group_non_uniform_reduce_and(at) + sub_group_non_uniform_reduce_xor(at);
    out[at] += sub_group_non_uniform_reduce_or(at) + sub_group_non_uniform_scan_exclusive_min(at);
    out[at] += sub_group_non_uniform_reduce_logical_or(at) + sub_group_clustered_reduce_max(at, 4);
    out[at] += sub_group_non_uniform_reduce_logical_and(at) + sub_group_non_uniform_reduce_logical_xor(at);
    out[at] += sub_group_non_uniform_broadcast(at, 5);
    real[at] = sub_group_non_uniform_reduce_min(real[at]) + sub_group_clustered_reduce_add(real[at], 8);
    real[at] *= sub_group_non_uniform_reduce_mul(real[at]) + sub_group_non_uniform_scan_inclusive_max(real[at]);
}

kernel void words(global uint *out)
{
    int at = get_global_id(0);
    out[at] = sub_group_non_uniform_reduce_min(out[at]) + sub_group_non_uniform_scan_inclusive_max(out[at]);
}
