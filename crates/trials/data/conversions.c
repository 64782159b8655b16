#include <assert.h>
#include <stdio.h>

/* Promotions, the usual conversions, conversions to a target, casts, constants and forms of statements. */

int twice(short x)
{
    return x + x;
}

unsigned char low(int x)
{
    return x;
}

int main(void)
{
    char c;
    unsigned char d;
    short s;
    unsigned short t;
    int i;
    unsigned u;
    short a[2];
    int n;

    /* promotions: all values of the narrow types are in int */
    c = -1;
    d = 255;
    s = -1;
    t = 65535;
    assert(c + d == 254);
    assert(s + t == 65534);
    assert(-t == -65535);
    assert(~d == -256);
    assert(+c == -1);
    assert(!t == 0);
    assert(d * d == 65025);
    assert(t * t == -131071);

    /* the usual conversions: int to unsigned */
    u = 1;
    i = -1;
    assert((i < u) == 0);
    assert((i < (int) u) == 1);
    assert((c < u) == 0);
    assert((t < u) == 0);
    assert((-1 < t) == 1);
    assert((-1 < 1u) == 0);
    assert(i / 2u == 2147483647);
    assert(i / 2 == 0);
    assert(i % 16u == 15);
    assert((i == 4294967295) == 1);
    i = c + u;
    assert(i == 0);
    u = c;
    assert(u == 4294967295);

    /* a shift has the promoted type of its left operand */
    u = 1;
    i = -8 >> u;
    assert(i == -4);
    i = c << u;
    assert(i == -2);
    u = 4294967288;
    c = 1;
    assert(u >> c == 2147483644);
    assert((d << 24 < 0) == 1);

    /* a conditional has the common type of its branches */
    c = -1;
    u = 1;
    i = 1;
    assert(((i ? c : u) > 0) == 1);
    assert((i ? c : d) == -1);
    assert((0 ? 2 : 3) == 3);

    /* conversions to a target keep the low bits */
    s = 40000;
    assert(s == -25536);
    d = 256 + 7;
    assert(d == 7);
    c = 200;
    assert(c == -56);
    t = -1;
    assert(t == 65535);
    u = -1;
    assert(u == 4294967295);
    i = 4294967295;
    assert(i == -1);
    i = 2147483648;
    assert(i < 0);
    d = 255;
    d++;
    assert(d == 0);
    --t;
    assert(t == 65534);
    s = 32767;
    s++;
    assert(s == -32768);
    s += 40000;
    assert(s == 7232);
    d = 129;
    d <<= 1;
    assert(d == 2);
    u = 0;
    --u;
    assert(u == 4294967295);
    a[1] = -32768;
    --a[1];
    assert(a[1] == 32767);
    c = 1;
    a[c] -= 70000;
    assert(a[1] == 28303);

    /* casts */
    assert((char) 200 == -56);
    assert((unsigned char) -1 == 255);
    assert((char) (unsigned char) c == c);
    assert((short) 70000 == 4464);
    assert((unsigned) -1 > 0);
    assert((int) 4294967295 == -1);

    /* constants: the first type that has the value */
    assert(2147483647 + 0 > 0);
    assert((2147483648 > -1) == 0);
    assert((0x7fffffff > -1) == 1);
    assert((0x80000000 > -1) == 0);
    assert(0x10 == 16 && 010 == 8 && 'a' == 97 && '\n' == 10 && '\377' == -1);
    assert((1u - 2 > 0) == 1);

    /* what is evaluated */
    n = 0;
    i = 0 && 1 / n;
    assert(i == 0);
    i = 1 || 1 / n;
    assert(i == 1);
    i = c && u;
    assert(i == 1);
    i = 1 ? 5 : 1 / n;
    assert(i == 5);

    /* an else belongs to the nearest if */
    n = 0;
    if (0) if (1) n = 1; else n = 2;
    assert(n == 0);

    /* an inner name hides an outer one; a block's local begins with 0 */
    {
        int c = 9;
        int b[3] = {3, 65535 + 1};
        assert(c == 9 && b[0] == 3 && b[1] == 65536 && b[2] == 0);
    }
    assert(c == 1);

    /* arguments and results are converted */
    assert(twice(70000) == 8928);
    assert(low(300) == 44);
    printf("%d\n", n);
    return 0;
}
