int main(int a) {
    if (a != 1)
        assert(0);
}
