int main(int a) {
    int x;
    int y;
    x = a;
    y = x;
    x = 4;
    y = x;
    x = y;
    a = x;
    y = 9;
    x = 8;
    a = y;
    y = a;
    x = 6;
    assert(a == 2);
}
