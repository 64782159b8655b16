int main(int a) {
    short s;
    s = 1;
    assert(s == a);
}
