int main(int a) {
    int r;
    switch (a) {
    case 1:
        r = 5;
    case 2:
        r = 7;
        break;
    default:
        r = 9;
    }
    assert(r == 5);
    return 0;
}
