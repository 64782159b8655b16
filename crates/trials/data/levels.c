enum level { LOW = 1, HIGH };
int main(void) {
    enum level x;
    x = LOW;
    assert(x == HIGH);
    return 0;
}
