int twice(int n) {
    if (n == 0)
        return 0;
    return 2 + twice(n - 1);
}
int main(int n) {
    int y;
    y = twice(n) + twice(1);
    assert(y == 5);
    return 0;
}
