// Packets of pipes, by themselves, in reservations, and in reservations of a group.
struct pair { int one; float two; };

kernel void moved(read_only pipe int in, write_only pipe int out, global int *told)
{
    int one;
    if (read_pipe(in, &one) == 0)
        told[0] = write_pipe(out, &one);
    told[1] = get_pipe_num_packets(in) + get_pipe_max_packets(out);
}

kernel void reserved(read_only pipe struct pair in, write_only pipe struct pair out)
{
    struct pair one;
    reserve_id_t taken = reserve_read_pipe(in, 2), given = reserve_write_pipe(out, 2);
    if (is_valid_reserve_id(taken) && is_valid_reserve_id(given)) {
        read_pipe(in, taken, 1, &one);
        write_pipe(out, given, 0, &one);
        commit_read_pipe(in, taken);
        commit_write_pipe(out, given);
    }
}

kernel void shared(read_only pipe int in, write_only pipe int out)
{
    int one = 0;
    reserve_id_t taken = work_group_reserve_read_pipe(in, 8), given = work_group_reserve_write_pipe(out, 8);
    read_pipe(in, taken, get_local_id(0), &one);
    write_pipe(out, given, get_local_id(0), &one);
    work_group_commit_read_pipe(in, taken);
    work_group_commit_write_pipe(out, given);
}
