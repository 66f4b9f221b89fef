// Copies between global and local memory that a group waits for.
kernel void copied(global float4 *out, global const float4 *in, local float4 *own)
{
    event_t one = async_work_group_copy(own, in, 64, 0);
    one = async_work_group_strided_copy(own + 64, in + 128, 64, 2, one);
    wait_group_events(1, &one);
    own[get_local_id(0)] += own[get_local_id(0) + 64];
    barrier(CLK_LOCAL_MEM_FENCE);
    event_t two[2];
    two[0] = async_work_group_copy(out, own, 32, 0);
    two[1] = async_work_group_copy(out + 32, own + 32, 32, 0);
    wait_group_events(2, two);
    prefetch(in + 256, 4);
}
