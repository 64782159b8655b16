#include <assert.h>
#include <stdio.h>
#define N 4

/* greatest element */
int largest(const int a[], int n);

int main(int a[N]) {
    int i, m;
    m = largest(a, N);
    for (i = 0; i < N; i++) {
        assert(m >= a[i]);
    }
    printf("%d\n", m);
    return 0;
}

int largest(const int a[], int n) {
    int i, m = a[0];
    for (i = 1; i < n - 1; i++)
        if (a[i] > m)
            m = a[i];
    return m;
}
