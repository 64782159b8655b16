int main(unsigned n) {
    unsigned s, i;
    s = 0;
    for (i = 1; i < n; i++)
        s = s + i;
    assert(s == 6);
    return 0;
}
