int main(int n) {
    int s, i, j;
    s = 0;
    for (i = 0; i < n; i++)
        for (j = 0; j < n; j++)
            s = s + 1;
    assert(s == 3);
    return 0;
}
