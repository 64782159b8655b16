int main(int a) {
    switch (1 / a) {
    case 1:
        return 0;
    }
    assert(0);
    return 0;
}
