#define A B
#define B 1
