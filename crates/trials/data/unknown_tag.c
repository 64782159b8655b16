enum color { RED };
int main(void) {
    enum colour c;
    c = RED;
    return 0;
}
