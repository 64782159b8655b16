enum state { START, ONE, BOTH };

int main(int a, int b, int c) {
    int input[3];
    enum state state;
    int i;
    input[0] = a;
    input[1] = b;
    input[2] = c;
    state = START;
    for (i = 0; i < 3; i++) {
        switch (state) {
        case START:
            if (input[i] == 1)
                state = ONE;
            break;
        case BOTH:
            if (input[i] == 2)
                state = BOTH;
            else
                state = START;
            break;
        default:
            state = START;
        }
    }
    assert(state == BOTH || b != 1 || c != 2);
    return 0;
}
