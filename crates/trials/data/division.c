int main(int d) {
    int q;
    q = 6 / d;
    assert(q == 2);
    return 0;
}
