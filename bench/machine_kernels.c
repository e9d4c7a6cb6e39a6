/* Loops over arrays, each ROUNDS times: a sieve, a product of matrices, a sort, a checksum by a table and a search in a text. bench/machine_loops.py builds it
   as a guest; it writes a number of each, which depends on all that was computed. */
#include <stdint.h>
#include <stdio.h>
#include <string.h>

enum { ROUNDS = 32, LIMIT = 20000, SIDE = 24, COUNT = 1500, BYTES = 16384 };

static uint8_t composite[LIMIT], text[BYTES];
static uint32_t a[SIDE][SIDE], b[SIDE][SIDE], c[SIDE][SIDE], numbers[COUNT], table[256];

static uint32_t state = 1;

static uint32_t drawn(void) {
    state = state * 1664525 + 1013904223;
    return state >> 8;
}

static uint32_t sieve(void) {
    uint32_t primes = 0;
    memset(composite, 0, sizeof composite);
    for (uint32_t i = 2; i < LIMIT; i++) {
        if (composite[i]) continue;
        primes++;
        for (uint32_t k = 2 * i; k < LIMIT; k += i) composite[k] = 1;
    }
    return primes;
}

static uint32_t product(void) {
    uint32_t sum = 0;
    for (int i = 0; i < SIDE; i++)
        for (int k = 0; k < SIDE; k++) { a[i][k] = drawn(); b[k][i] = drawn(); }
    for (int i = 0; i < SIDE; i++)
        for (int k = 0; k < SIDE; k++) {
            uint32_t cell = 0;
            for (int j = 0; j < SIDE; j++) cell += a[i][j] * b[j][k];
            c[i][k] = cell;
            sum = sum * 31 + cell;
        }
    return sum;
}

static uint32_t sort(void) {
    uint32_t sum = 0;
    for (int i = 0; i < COUNT; i++) numbers[i] = drawn();
    for (int gap = COUNT / 2; gap; gap /= 2)
        for (int i = gap; i < COUNT; i++) {
            uint32_t moved = numbers[i];
            int k = i;
            for (; k >= gap && numbers[k - gap] > moved; k -= gap) numbers[k] = numbers[k - gap];
            numbers[k] = moved;
        }
    for (int i = 0; i < COUNT; i++) sum = sum * 31 + numbers[i];
    return sum;
}

static uint32_t checksum(void) {
    uint32_t crc = UINT32_MAX;
    for (uint32_t i = 0; i < 256; i++) {
        uint32_t rest = i;
        for (int k = 0; k < 8; k++) rest = rest & 1 ? rest >> 1 ^ 0xedb88320 : rest >> 1;
        table[i] = rest;
    }
    for (int i = 0; i < BYTES; i++) text[i] = 'a' + (drawn() >> 12) % 4;
    for (int i = 0; i < BYTES; i++) crc = crc >> 8 ^ table[(crc ^ text[i]) & 255];
    return ~crc;
}

static uint32_t search(void) {
    static const char wanted[] = "abcdab";
    uint32_t found = 0;
    for (int i = 0; i + (int)sizeof wanted - 1 <= BYTES; i++) {
        int k = 0;
        while (wanted[k] && text[i + k] == (uint8_t)wanted[k]) k++;
        found += !wanted[k];
    }
    return found;
}

int main(void) {
    uint32_t (*const kernels[])(void) = {sieve, product, sort, checksum, search};
    for (int i = 0; i < 5; i++) {
        uint32_t sum = 0;
        for (int round = 0; round < ROUNDS; round++) sum = sum * 31 + kernels[i]();
        printf("%08x\n", (unsigned)sum);
    }
    return 0;
}
