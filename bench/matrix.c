/* A product of two matrices of 64 by 64 numbers, ROUNDS times over, and a sum of the last. bench/matrix.py builds it with and without mul. */
#include <stdio.h>

#define SIZE 64

static unsigned a[SIZE][SIZE], b[SIZE][SIZE], c[SIZE][SIZE];

int main(void) {
    unsigned seed = 1, sum = 0;
    for (int i = 0; i < SIZE; i++)
        for (int k = 0; k < SIZE; k++) {
            seed = seed * 1664525 + 1013904223;
            a[i][k] = seed >> 8;
            b[k][i] = seed >> 4;
        }
    for (int round = 0; round < ROUNDS; round++) {
        for (int i = 0; i < SIZE; i++)
            for (int k = 0; k < SIZE; k++) {
                unsigned cell = 0;
                for (int j = 0; j < SIZE; j++) cell += a[i][j] * b[j][k];
                c[i][k] = cell;
            }
        a[round][0] = c[0][round];
    }
    for (int i = 0; i < SIZE; i++)
        for (int k = 0; k < SIZE; k++) sum = sum * 31 + c[i][k];
    printf("%08x\n", sum);
    return 0;
}
