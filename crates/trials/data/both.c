int main(int a, int b) {
    int r;
    r = a && b;
    assert(r == 1);
    return 0;
}
