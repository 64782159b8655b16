int a[256];
int main(void) {
    return 0;
}
