// Loops within one another, one left early, and phis where optimised.
kernel void loop(global const int *in, global int *out, int rows, int columns)
{
    int sum = 0;
    for (int row = 0; row < rows; ++row) {
        int least = in[row * columns];
        for (int column = 1; column < columns; ++column) {
            const int value = in[row * columns + column];
            if (value < 0)
                break;
            least = value < least ? value : least;
        }
        sum += least;
    }
    do {
        sum /= 2;
    } while (sum > 1000);
    out[get_global_id(0)] = sum;
}
