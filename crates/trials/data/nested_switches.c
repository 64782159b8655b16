int half(int n) {
    return n / 2;
}
int main(int n, int expected) {
    int i, s;
    char c;
    s = 0;
    for (i = 0; i < n; i++) {
        c = i % 4;
        switch (c) {
        case 0:
            continue;
        case 1:
            switch (half(s)) {
            case 0:
                s = 3;
                break;
            default:
                break;
            }
            s = s + 1;
            break;
        case 2:
            s = s * 2;
        }
        s = s + 100;
    }
    while (1) {
        switch (n) {
        }
        break;
    }
    do {
        switch (s % 3) {
        case 0:
            continue;
        default:
            ;
        }
        s = s + 1;
    } while (s % 3);
    assert(s == expected);
    return 0;
}
