/* The same filter by a plain interpreter in C: one switch over the codes that it has, no check of places. */
#include <stdint.h>
#include <stdio.h>
#include <stdlib.h>

struct op { uint16_t code; uint8_t jt, jf; uint32_t k; };

static uint32_t value(const struct op *ops, const uint32_t *words)
{
    uint32_t a = 0, x = 0, m[16] = { 0 };
    for (const struct op *op = ops;; op++) {
        switch (op->code) {
        case 0x20: a = words[op->k / 4]; break;
        case 0x00: a = op->k; break;
        case 0x01: x = op->k; break;
        case 0x60: a = m[op->k & 15]; break;
        case 0x61: x = m[op->k & 15]; break;
        case 0x80: a = 132; break;
        case 0x81: x = 132; break;
        case 0x02: m[op->k & 15] = a; break;
        case 0x03: m[op->k & 15] = x; break;
        case 0x04: a += op->k; break;
        case 0x0c: a += x; break;
        case 0x14: a -= op->k; break;
        case 0x1c: a -= x; break;
        case 0x24: a *= op->k; break;
        case 0x2c: a *= x; break;
        case 0x34: a /= op->k; break;
        case 0x3c: if (x == 0) return 0; a /= x; break;
        case 0x44: a |= op->k; break;
        case 0x4c: a |= x; break;
        case 0x54: a &= op->k; break;
        case 0x5c: a &= x; break;
        case 0x64: a <<= op->k; break;
        case 0x6c: a <<= x & 31; break;
        case 0x74: a >>= op->k; break;
        case 0x7c: a >>= x & 31; break;
        case 0x84: a = -a; break;
        case 0x05: op += op->k; break;
        case 0x15: op += a == op->k ? op->jt : op->jf; break;
        case 0x1d: op += a == x ? op->jt : op->jf; break;
        case 0x25: op += a > op->k ? op->jt : op->jf; break;
        case 0x2d: op += a > x ? op->jt : op->jf; break;
        case 0x35: op += a >= op->k ? op->jt : op->jf; break;
        case 0x3d: op += a >= x ? op->jt : op->jf; break;
        case 0x45: op += a & op->k ? op->jt : op->jf; break;
        case 0x4d: op += a & x ? op->jt : op->jf; break;
        case 0x06: return op->k;
        case 0x16: return a;
        case 0x07: x = a; break;
        case 0x87: a = x; break;
        }
    }
}

int main(int argc, char **argv)
{
    uint32_t count = atoi(argv[1]), versions = atoi(argv[2]), words[33] = { 0 }, sum = 0;
    struct op *ops = calloc(count, sizeof *ops);
    ops[0] = (struct op){ 0x20, 0, 0, 128 };
    for (uint32_t i = 1; i < count - 1; i++)
        ops[i] = (struct op){ 0x04, 0, 0, 1 };
    ops[count - 1] = (struct op){ 0x16, 0, 0, 0 };
    for (uint32_t version = 0; version < versions; version++) {
        words[32] = version;
        sum += value(ops, words);
    }
    printf("%u %u %u\n", count, versions, sum);
}
