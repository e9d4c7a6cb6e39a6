/* A plain switch interpreter of RV32I of the same design as nv_machine: regions with rights, searched at each access, and
   no cache of decoded words. It runs one of three guests for a number of instructions and prints where it came. With INLINE
   defined, the compiler may put `step` into the loop that calls it; with CODE, the addresses of the first region are kept for
   fetches, as nv_memory keeps them. */
#include <stdint.h>
#include <stdio.h>
#include <stdlib.h>
#include <string.h>

#include "machine_guests.h"

typedef struct { uint32_t start, end; int read, write, execute; } Region;
typedef struct { uint8_t *bytes; Region *regions; int count; uint32_t start, stop; } Memory;
typedef struct { uint32_t x[32]; uint32_t pc; } Regs;
enum { READ, WRITE, EXECUTE };
enum { ON, CALL, ILLEGAL, MISALIGNED, FETCH, LOAD, STORE, BREAKPOINT };

static inline int holds(const Memory *m, uint32_t a, uint32_t len, int right) {
    uint64_t end = (uint64_t)a + len;
    for (int i = 0; i < m->count; i++) {
        const Region *r = &m->regions[i];
        if (r->start <= a && end <= r->end && (right == READ ? r->read : right == WRITE ? r->write : r->execute)) return 1;
    }
    return 0;
}

static inline int can_fetch(const Memory *m, uint32_t a) {
#ifdef CODE
    if (m->start <= a && a < m->stop) return 1;
#endif
    return holds(m, a, 4, EXECUTE);
}

static inline uint32_t get(const uint8_t *p, int n) { uint32_t v = 0; memcpy(&v, p, n); return v; }

#define CALLED __attribute__((noinline))
#ifdef INLINE
#define STEP static
#else
#define STEP CALLED
#endif

STEP int step(Regs *g, Memory *m) {
    uint32_t pc = g->pc;
    if (!can_fetch(m, pc)) return FETCH;
    uint32_t w = get(m->bytes + pc, 4);
    uint32_t rd = w >> 7 & 31, rs2 = w >> 20 & 31, f3 = w >> 12 & 7, f7 = w >> 25;
    uint32_t a = g->x[w >> 15 & 31], b = g->x[rs2], v = 0, next = pc + 4;
    int32_t imm = (int32_t)w >> 20;
    switch (w & 127) {
    case 0x37: v = w & 0xfffff000; break;
    case 0x17: v = pc + (w & 0xfffff000); break;
    case 0x6f: {
        uint32_t t = pc + (((uint32_t)((int32_t)w >> 31) << 20) | (w & 0xff000) | (w >> 9 & 0x800) | (w >> 20 & 0x7fe));
        if (t & 3) return MISALIGNED;
        v = next; next = t; break;
    }
    case 0x67: {
        if (f3) return ILLEGAL;
        uint32_t t = (a + imm) & ~1u;
        if (t & 3) return MISALIGNED;
        v = next; next = t; break;
    }
    case 0x63: {
        int taken;
        switch (f3) {
        case 0: taken = a == b; break;
        case 1: taken = a != b; break;
        case 4: taken = (int32_t)a < (int32_t)b; break;
        case 5: taken = (int32_t)a >= (int32_t)b; break;
        case 6: taken = a < b; break;
        case 7: taken = a >= b; break;
        default: return ILLEGAL;
        }
        if (taken) {
            uint32_t to = pc + (((uint32_t)((int32_t)w >> 31) << 12) | (w << 4 & 0x800) | (w >> 20 & 0x7e0) | (w >> 7 & 0x1e));
            if (to & 3) return MISALIGNED;
            next = to;
        }
        g->pc = next;
        return ON;
    }
    case 0x03: {
        int n;
        switch (f3) {
        case 0: case 4: n = 1; break;
        case 1: case 5: n = 2; break;
        case 2: n = 4; break;
        default: return ILLEGAL;
        }
        uint32_t at = a + imm;
        if (!holds(m, at, n, READ)) return LOAD;
        v = n == 1 ? m->bytes[at] : get(m->bytes + at, n == 2 ? 2 : 4);
        if (f3 == 0) v = (int8_t)v;
        if (f3 == 1) v = (int16_t)v;
        break;
    }
    case 0x23: {
        if (f3 > 2) return ILLEGAL;
        int n = 1 << f3;
        uint32_t at = a + (((uint32_t)((int32_t)w >> 25) << 5) | rd);
        if (!holds(m, at, n, WRITE)) return STORE;
        if (n == 4) memcpy(m->bytes + at, &b, 4);
        else if (n == 2) memcpy(m->bytes + at, &b, 2);
        else m->bytes[at] = b;
        g->pc = next;
        return ON;
    }
    case 0x13:
        switch (f3) {
        case 0: v = a + imm; break;
        case 1: if (f7) return ILLEGAL; v = a << rs2; break;
        case 2: v = (int32_t)a < imm; break;
        case 3: v = a < (uint32_t)imm; break;
        case 4: v = a ^ imm; break;
        case 5:
            if (f7 == 0) v = a >> rs2;
            else if (f7 == 32) v = (int32_t)a >> rs2;
            else return ILLEGAL;
            break;
        case 6: v = a | imm; break;
        case 7: v = a & imm; break;
        }
        break;
    case 0x33:
        if (f7 == 0)
            switch (f3) {
            case 0: v = a + b; break;
            case 1: v = a << (b & 31); break;
            case 2: v = (int32_t)a < (int32_t)b; break;
            case 3: v = a < b; break;
            case 4: v = a ^ b; break;
            case 5: v = a >> (b & 31); break;
            case 6: v = a | b; break;
            case 7: v = a & b; break;
            }
        else if (f7 == 32 && f3 == 0) v = a - b;
        else if (f7 == 32 && f3 == 5) v = (int32_t)a >> (b & 31);
        else return ILLEGAL;
        break;
    case 0x0f: if (f3) return ILLEGAL; g->pc = next; return ON;
    case 0x73: return w == 0x73 ? CALL : w == 0x100073 ? BREAKPOINT : ILLEGAL;
    default: return ILLEGAL;
    }
    if (rd) g->x[rd] = v;
    g->pc = next;
    return ON;
}

/* The number of instructions that were carried out. It isn't compiled into `main`, where the regions would be constants. */
CALLED uint32_t run(Regs *g, Memory *m, uint32_t count) {
    for (uint32_t done = 0; done < count; done++)
        if (step(g, m) != ON) return done;
    return count;
}

int main(int argc, char **argv) {
    if (argc != 3) return 1;
    size_t size;
    const uint32_t *words = guest_words(argv[1], &size);
    uint32_t count = strtoul(argv[2], 0, 10);
    Region *r = malloc(4 * sizeof *r);
    r[0] = (Region){0x8000, 0x9000, 1, 1, 1};
    r[1] = (Region){0x10000, 0x20000, 1, 1, 0};
    r[2] = (Region){0x30000, 0x40000, 1, 1, 0};
    r[3] = (Region){0x20000, 0x20000, 1, 1, 0};
    Memory m = {calloc(0x40000, 1), r, 4, r[0].start, r[0].end - 3};
    memcpy(m.bytes + 0x8000, words, size);
    Regs g = {{0}, 0x8000};
    uint32_t done = run(&g, &m, count);
    printf("%s: %u steps, pc %08x, x5 %08x, x10 %08x, first word %08x\n", argv[1], done, g.pc, g.x[5], g.x[10], get(m.bytes + 0x10000, 4));
}
