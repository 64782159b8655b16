int main(int a) {
    short s;
    s = a;
    assert(s == a);
}
