int Array[3];
int main(int index) {
    int i;
    if (index != 1)
        index = 2;
    else
        index = index + 2;
    i = index;
    assert(i >= 0 && i < 3);
    return Array[i];
}
