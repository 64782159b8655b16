int a[257];
int main(void) {
    return 0;
}
