unsigned limit = 4294967295u;
int main(unsigned a) {
    unsigned x;
    x = limit + a;
    assert(x == 2);
    return 0;
}
