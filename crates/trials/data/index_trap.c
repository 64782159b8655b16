int main(int k) {
    int a[4] = {1, 2, 4, 7};
    int y;
    y = a[k + 1] + a[0];
    assert(y == 8);
    return 0;
}
