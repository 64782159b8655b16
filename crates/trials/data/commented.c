#include <assert.h>
#define TWO 0x2 /* as in C90 6.8.3 */
int main(int a) {
    int x; // a local
    x = a;
    assert(x == TWO);
}
