int main(int k) {
    int a[2];
    a[k] = 1;
    assert(a[0] == 1);
    return 0;
}
