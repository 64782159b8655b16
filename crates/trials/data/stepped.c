int g = 1;
int step(int x) {
    return x + g;
}
int main(int n) {
    int i;
    i = 0;
    do {
        i = step(i);
    } while (i < n);
    assert(i == n + 1);
    return 0;
}
