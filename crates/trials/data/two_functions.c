#include <assert.h>

/* The value, or the end of the range that it is past. */
int clamp(int value, int least, int most)
{
    if (value < least)
        return least;
    if (value > most)
        return least;
    return value;
}

/* How many of twenty cells of a bar are lit for a value of the range. */
int cells(int value, int least, int most)
{
    int inside;

    inside = clamp(value, least, most);
    return (inside - least) * 20 / (most - least);
}

int main(int value, int least, int most)
{
    int lit;

    lit = cells(value, least, most);
    assert(lit >= 0 && lit <= 20);
    assert(value < most || lit == 20);
    return 0;
}
