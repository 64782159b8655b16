int g;
int main(int a) {
    int x;
    g = g + a;
    x = 0;
    assert(x == 1 && g == a);
}
