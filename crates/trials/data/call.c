int up(int x) {
    return x + 1;
}
int main(int a) {
    int y;
    y = up(a);
    assert(y == a);
    return 0;
}
