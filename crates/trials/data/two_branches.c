int main(int a) {
    int x;
    int y;
    x = 1;
    y = 1;
    if (a)
        assert(x == 2);
    else
        assert(y == 2);
    return 0;
}
