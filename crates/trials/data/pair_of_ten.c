int main(void) {
    int x;
    int y;
    x = 3;
    y = x;
    x = y;
    y = 4;
    x = y;
    y = 5;
    x = 6;
    x = 1;
    y = x;
    y = 1;
    assert(x == 2);
    assert(y == 3);
}
