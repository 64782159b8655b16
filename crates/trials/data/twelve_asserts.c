int main(int a) {
    assert(a == 0); assert(a == 0); assert(a == 0); assert(a == 0); assert(a == 0); assert(a == 0);
    assert(a == 0); assert(a == 0); assert(a == 0); assert(a == 0); assert(a == 0); assert(a == 0);
}
