int main(int n) {
    int i, s = 0;
    for (i = 0; ; i++) {
        if (i > n) break;
        s += i;
    }
    assert(s == n * (n - 1) / 2);
    return 0;
}
