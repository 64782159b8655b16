int main(void) {
    int x;
    int y;
    x = 1;
    y = 1;
    assert(x == 2);
    assert(y == 2);
}
