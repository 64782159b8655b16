int main(int a) {
    int x;
    int y;
    x = a;
    y = x;
    assert(y == 2);
}
