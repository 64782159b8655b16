int main(int a) {
    while (a) { }
    return 0;
}
