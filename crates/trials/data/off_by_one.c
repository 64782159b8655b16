#include <assert.h>
#define N 5

/* The place of the largest of five readings; of equal ones, the first. */
int peak(int reading[N])
{
    int i, best;

    best = 0;
    for (i = 1; i < N - 1; i++) {
        if (reading[i] > reading[best])
            best = i;
    }
    return best;
}

/* No reading may be larger than the one at the peak. */
int main(int reading[N])
{
    int i, at;

    at = peak(reading);
    for (i = 0; i < N; i++)
        assert(reading[i] <= reading[at]);
    return 0;
}
