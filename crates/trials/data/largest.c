int main(int p1, int p2, int p3, int p4, int p5, int p6, int p7, int p8, int p9, int p10,
    int p11, int p12) {
    int a; int b; int c; int d; int e; int f; int g; int h; int i; int j; int k; int l;
    a = p1;
    b = a;
    c = b;
    d = c;
    e = d;
    f = e;
    g = f;
    h = g;
    i = h;
    j = i;
    k = j;
    assert(k == 1);
}
