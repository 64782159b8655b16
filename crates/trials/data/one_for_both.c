int main(int a) {
    int x;
    int y;
    int z;
    x = 1;
    y = 1;
    z = 1;
    if (a)
        assert(x + z == 3);
    else
        assert(y + z == 3);
    return 0;
}
