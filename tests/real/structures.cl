// Structures that hold arrays and structures, copies of them, a constant table and local memory.
struct point {
    int x, y;
    uchar tags[4];
};

struct shape {
    struct point corners[3];
    ushort colour;
    global struct shape *next;
};

constant int weights[3] = {1, -2, 3};

kernel void structures(global struct shape *shapes, global int *out)
{
    local int shared_sums[16];
    const size_t at = get_global_id(0);
    struct shape own = shapes[at];
    int sum = own.colour;
    for (int i = 0; i < 3; ++i)
        sum += weights[i] * own.corners[i].x + own.corners[i].tags[i];
    own.corners[1].y = sum;
    shapes[at] = own;
    if (own.next != 0)
        sum += own.next->corners[2].y;
    shared_sums[at & 15] = sum;
    out[at] = shared_sums[at & 15];
}
