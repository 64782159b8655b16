#include <assert.h>

/* The bits that are set in each number of four bits. */
const int set_bits[16] = {0, 1, 1, 2, 1, 2, 2, 3, 1, 2, 2, 2, 2, 3, 3, 4};

/* The bits that are set in a number, by four at a time. */
int count(unsigned number)
{
    int sum = 0;

    while (number != 0) {
        sum += set_bits[number % 16];
        number /= 16;
    }
    return sum;
}

/* The same, bit by bit. */
int slow_count(unsigned number)
{
    int sum = 0;

    for (; number != 0; number >>= 1)
        sum += number & 1;
    return sum;
}

int main(unsigned number)
{
    assert(count(number) == slow_count(number));
    return 0;
}
