int main(int a) {
    int x;
    x = a;
    assert(x == 2);
}
