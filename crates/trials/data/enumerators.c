enum { SIZE = 3, LAST = SIZE - 1 };
static enum color { RED, GREEN = 5, BLUE, } favourite = BLUE;
int a[SIZE] = { RED, GREEN };

enum color next(enum color c) {
    enum { RED = 10 };
    switch (c) {
    case GREEN:
        return BLUE;
    case BLUE:
        return (enum color) RED;
    }
    return GREEN;
}

int main(int SIZE) {
    int color = next(favourite);
    for (enum color c = RED; c < 2; c++)
        a[LAST] += c;
    assert(color == 10 && a[LAST] == 1 && SIZE == 7);
    return 0;
}
