/* A plain switch interpreter of RV32IMA that decodes an instruction once: a table has eight bytes for each word of the first region that may be executed,
   which a store or an answer that meets them empties. Regions with rights are searched at each load and store, as in machine_loops.c. With EACH defined the
   table isn't looked at, so that each step decodes.

       machine_decoded GUEST COUNT                      a guest of `nv_rows machine`, for so many instructions
       machine_decoded FILE MIB COUNT INPUT [OUTPUT]    the guest of an ELF file, as `nv_rows threads` runs it

   A file's guest has one thread, and finds what docs/GUESTS.md says. read gets the next bytes of INPUT, write is answered by what it was asked, brk moves the
   break, and all else is ENOSYS. What goes to descriptor 1 is written to OUTPUT, where there is one. Files are taken as they come: nothing looks for broken ones. */
#include <stdint.h>
#include <stdio.h>
#include <stdlib.h>
#include <string.h>

#include "machine_guests.h"

typedef struct { uint32_t start, end; int read, write, execute; } Region;
typedef struct { uint8_t op, rd, rs1, rs2; int32_t imm; } Insn;
typedef struct { uint8_t *bytes; Region *regions; int count; Insn *insns; uint32_t code, words; } Memory;
typedef struct { uint32_t x[32], pc, reserved; int has_reserved; } Regs;

enum { READ, WRITE, EXECUTE };
enum { ON, CALL, ILLEGAL, MISALIGNED, FETCH, LOAD, STORE, BREAKPOINT };
enum { MOST_REGIONS = 18, STACK = 65536, PAGE = 4096 };

/* NONE stands where nothing was decoded. */
enum {
    NONE, LUI, AUIPC, JAL, JALR, BEQ, BNE, BLT, BGE, BLTU, BGEU, LB, LH, LW, LBU, LHU, SB, SH, SW, ADDI, SLTI, SLTIU, XORI, ORI, ANDI, SLLI, SRLI, SRAI,
    ADD, SUB, SLL, SLT, SLTU, XOR, SRL, SRA, OR, AND, MUL, MULH, MULHSU, MULHU, DIV, DIVU, REM, REMU, FENCE, ECALL, EBREAK,
    LR, SC, AMOSWAP, AMOADD, AMOXOR, AMOAND, AMOOR, AMOMIN, AMOMAX, AMOMINU, AMOMAXU
};

static inline const Region *holder(const Memory *m, uint32_t at, uint32_t len, int right) {
    uint64_t end = (uint64_t)at + len;
    for (int i = 0; i < m->count; i++) {
        const Region *r = &m->regions[i];
        if (r->start <= at && end <= r->end && (right == READ ? r->read : right == WRITE ? r->write : r->execute)) return r;
    }
    return NULL;
}

static inline uint32_t get(const uint8_t *p, int n) { uint32_t v = 0; memcpy(&v, p, n); return v; }

/* Empties what is decoded of the words that the range meets. */
static void forget(Memory *m, uint32_t at, uint32_t len) {
    uint64_t end = (uint64_t)at + len;
    for (uint64_t word = at / 4; word * 4 < end; word++) {
        uint32_t place = (uint32_t)(word - m->code / 4);
        if (place < m->words) m->insns[place].op = NONE;
    }
}

static int32_t bits(uint32_t word, int from, int count) { return word >> from & ((1u << count) - 1); }

/* The operation of a word that computes from two registers, or NONE. */
static int between_registers(int f3, int f7) {
    static const uint8_t plain[8] = {ADD, SLL, SLT, SLTU, XOR, SRL, OR, AND}, product[8] = {MUL, MULH, MULHSU, MULHU, DIV, DIVU, REM, REMU};
    if (f7 == 0) return plain[f3];
    if (f7 == 1) return product[f3];
    return f7 == 32 && f3 == 0 ? SUB : f7 == 32 && f3 == 5 ? SRA : NONE;
}

static int with_immediate(int f3, int f7) {
    static const uint8_t plain[8] = {ADDI, NONE, SLTI, SLTIU, XORI, NONE, ORI, ANDI};
    if (f3 == 1) return f7 == 0 ? SLLI : NONE;
    if (f3 == 5) return f7 == 0 ? SRLI : f7 == 32 ? SRAI : NONE;
    return plain[f3];
}

static int atomic(int f3, int f5, int rs2) {
    if (f3 != 2) return NONE;
    switch (f5) {
    case 0: return AMOADD;
    case 1: return AMOSWAP;
    case 2: return rs2 == 0 ? LR : NONE;
    case 3: return SC;
    case 4: return AMOXOR;
    case 8: return AMOOR;
    case 12: return AMOAND;
    case 16: return AMOMIN;
    case 20: return AMOMAX;
    case 24: return AMOMINU;
    case 28: return AMOMAXU;
    }
    return NONE;
}

static Insn decode(uint32_t w) {
    static const uint8_t branches[8] = {BEQ, BNE, NONE, NONE, BLT, BGE, BLTU, BGEU}, loads[8] = {LB, LH, LW, NONE, LBU, LHU, NONE, NONE};
    int f3 = bits(w, 12, 3), f7 = bits(w, 25, 7);
    int32_t top = (int32_t)w >> 31;
    Insn i = {NONE, bits(w, 7, 5), bits(w, 15, 5), bits(w, 20, 5), (int32_t)w >> 20};
    switch (w & 127) {
    case 0x37: i.op = LUI; i.imm = w & 0xfffff000; break;
    case 0x17: i.op = AUIPC; i.imm = w & 0xfffff000; break;
    case 0x6f: i.op = JAL; i.imm = top * (1 << 20) | (w & 0xff000) | bits(w, 20, 1) << 11 | bits(w, 21, 10) << 1; break;
    case 0x67: i.op = f3 == 0 ? JALR : NONE; break;
    case 0x63: i.op = branches[f3]; i.imm = top * (1 << 12) | bits(w, 7, 1) << 11 | bits(w, 25, 6) << 5 | bits(w, 8, 4) << 1; break;
    case 0x03: i.op = loads[f3]; break;
    case 0x23: i.op = f3 == 0 ? SB : f3 == 1 ? SH : f3 == 2 ? SW : NONE; i.imm = (int32_t)w >> 25 << 5 | i.rd; break;
    case 0x13: i.op = with_immediate(f3, f7); if (f3 == 1 || f3 == 5) i.imm = i.rs2; break;
    case 0x33: i.op = between_registers(f3, f7); break;
    case 0x0f: i.op = f3 == 0 ? FENCE : NONE; break;
    case 0x73: i.op = w == 0x73 ? ECALL : w == 0x100073 ? EBREAK : NONE; break;
    case 0x2f: i.op = atomic(f3, f7 >> 2, i.rs2); break;
    }
    return i;
}

#ifndef EACH
/* Decodes the word at the pc, and keeps it where the table has its place; NULL, and how it ends, where it can't be. */
__attribute__((noinline)) static const Insn *decode_anew(Memory *m, uint32_t pc, Insn *found, int *ends) {
    *ends = FETCH;
    if (!holder(m, pc, 4, EXECUTE)) return NULL;
    *ends = ILLEGAL;
    *found = decode(get(m->bytes + pc, 4));
    if (found->op == NONE) return NULL;
    uint32_t place = (pc - m->code) / 4;
    if (place < m->words) m->insns[place] = *found;
    return found;
}
#endif

static uint32_t quotient(int op, uint32_t a, uint32_t b) {
    int32_t c = (int32_t)a, d = (int32_t)b;
    if (op == DIVU) return b ? a / b : UINT32_MAX;
    if (op == REMU) return b ? a % b : a;
    if (op == DIV) return !d ? UINT32_MAX : d == -1 ? 0 - a : (uint32_t)(c / d);
    return !d ? a : d == -1 ? 0 : (uint32_t)(c % d);
}

static uint32_t combined(int op, uint32_t old, uint32_t by) {
    int32_t a = (int32_t)old, b = (int32_t)by;
    switch (op) {
    case AMOADD: return old + by;
    case AMOXOR: return old ^ by;
    case AMOAND: return old & by;
    case AMOOR: return old | by;
    case AMOMIN: return a < b ? old : by;
    case AMOMAX: return a > b ? old : by;
    case AMOMINU: return old < by ? old : by;
    case AMOMAXU: return old > by ? old : by;
    }
    return by;
}

/* LR.W, SC.W and the AMOs, whose reservation lasts until the next SC.W or call. */
__attribute__((noinline)) static int step_atomic(Regs *g, Memory *m, const Insn *i) {
    uint32_t at = g->x[i->rs1], value = g->x[i->rs2], old = 0;
    const Region *r = at % 4 ? NULL : holder(m, at, 4, i->op == LR ? READ : WRITE);
    if (!r || (i->op > SC && !holder(m, at, 4, READ))) return i->op == LR ? LOAD : STORE;
    int writes = i->op > SC;
    if (i->op == SC) {
        writes = g->has_reserved && g->reserved == at;
        old = !writes;
        g->has_reserved = 0;
    } else {
        old = get(m->bytes + at, 4);
    }
    if (i->op == LR) { g->reserved = at; g->has_reserved = 1; }
    if (writes) {
        value = i->op == SC ? value : combined(i->op, old, value);
        memcpy(m->bytes + at, &value, 4);
        if (r->execute) forget(m, at, 4);
    }
    if (i->rd) g->x[i->rd] = old;
    g->pc += 4;
    return ON;
}

static inline int step(Regs *g, Memory *m) {
    uint32_t pc = g->pc;
    Insn found;
    const Insn *i;
#ifdef EACH
    if (!holder(m, pc, 4, EXECUTE)) return FETCH;
    found = decode(get(m->bytes + pc, 4));
    if (found.op == NONE) return ILLEGAL;
    i = &found;
#else
    uint32_t place = (pc - m->code) / 4;
    i = place < m->words ? &m->insns[place] : NULL;
    if (!i || i->op == NONE) {
        int ends;
        i = decode_anew(m, pc, &found, &ends);
        if (!i) return ends;
    }
#endif
    uint32_t a = g->x[i->rs1], b = g->x[i->rs2], imm = (uint32_t)i->imm, v = 0, next = pc + 4, at = a + imm;
    int taken = 0, len = 0;
    switch (i->op) {
    case LUI: v = imm; break;
    case AUIPC: v = pc + imm; break;
    case JAL:
        if ((pc + imm) & 3) return MISALIGNED;
        v = next; next = pc + imm; break;
    case JALR:
        if (at & 2) return MISALIGNED;
        v = next; next = at & ~1u; break;
    case BEQ: taken = a == b; goto branch;
    case BNE: taken = a != b; goto branch;
    case BLT: taken = (int32_t)a < (int32_t)b; goto branch;
    case BGE: taken = (int32_t)a >= (int32_t)b; goto branch;
    case BLTU: taken = a < b; goto branch;
    case BGEU: taken = a >= b; goto branch;
    branch:
        if (taken) {
            if ((pc + imm) & 3) return MISALIGNED;
            next = pc + imm;
        }
        g->pc = next;
        return ON;
    case LB: if (!holder(m, at, 1, READ)) return LOAD; v = (int8_t)m->bytes[at]; break;
    case LH: if (!holder(m, at, 2, READ)) return LOAD; v = (int16_t)get(m->bytes + at, 2); break;
    case LW: if (!holder(m, at, 4, READ)) return LOAD; v = get(m->bytes + at, 4); break;
    case LBU: if (!holder(m, at, 1, READ)) return LOAD; v = m->bytes[at]; break;
    case LHU: if (!holder(m, at, 2, READ)) return LOAD; v = get(m->bytes + at, 2); break;
    case SB: len = 1; goto store;
    case SH: len = 2; goto store;
    case SW: len = 4; goto store;
    store: {
        const Region *r = holder(m, at, len, WRITE);
        if (!r) return STORE;
        if (len == 4) memcpy(m->bytes + at, &b, 4);
        else if (len == 2) memcpy(m->bytes + at, &b, 2);
        else m->bytes[at] = b;
        if (r->execute) forget(m, at, len);
        g->pc = next;
        return ON;
    }
    case ADDI: v = a + imm; break;
    case SLTI: v = (int32_t)a < i->imm; break;
    case SLTIU: v = a < imm; break;
    case XORI: v = a ^ imm; break;
    case ORI: v = a | imm; break;
    case ANDI: v = a & imm; break;
    case SLLI: v = a << imm; break;
    case SRLI: v = a >> imm; break;
    case SRAI: v = (int32_t)a >> imm; break;
    case ADD: v = a + b; break;
    case SUB: v = a - b; break;
    case SLL: v = a << (b & 31); break;
    case SLT: v = (int32_t)a < (int32_t)b; break;
    case SLTU: v = a < b; break;
    case XOR: v = a ^ b; break;
    case SRL: v = a >> (b & 31); break;
    case SRA: v = (int32_t)a >> (b & 31); break;
    case OR: v = a | b; break;
    case AND: v = a & b; break;
    case MUL: v = a * b; break;
    case MULH: v = (int64_t)(int32_t)a * (int32_t)b >> 32; break;
    case MULHSU: v = (int64_t)(int32_t)a * b >> 32; break;
    case MULHU: v = (uint64_t)a * b >> 32; break;
    case DIV: case DIVU: case REM: case REMU: v = quotient(i->op, a, b); break;
    case FENCE: g->pc = next; return ON;
    case ECALL: return CALL;
    case EBREAK: return BREAKPOINT;
    default: return step_atomic(g, m, i);
    }
    if (i->rd) g->x[i->rd] = v;
    g->pc = next;
    return ON;
}

/* The number of instructions that went on, and how the next one ends. It isn't compiled into `main`, where the regions would be constants. */
__attribute__((noinline)) static uint32_t run(Regs *g, Memory *m, uint32_t count, int *ended) {
    *ended = ON;
    for (uint32_t done = 0; done < count; done++)
        if ((*ended = step(g, m)) != ON) return done;
    return count;
}

/* A memory without bytes, whose table is that of the first region that may be executed. */
static Memory memory_of(Region *regions, int count, uint32_t size) {
    Memory m = {calloc(size, 1), regions, count, NULL, 0, 0};
    for (int i = 0; i < count && !m.words; i++)
        if (regions[i].execute && regions[i].start % 4 == 0) {
            m.code = regions[i].start;
            m.words = (regions[i].end - regions[i].start) / 4;
        }
    m.insns = calloc(m.words + 1, sizeof *m.insns);
    return m;
}

static int run_words(const char *name, uint32_t count) {
    size_t size;
    const uint32_t *words = guest_words(name, &size);
    Region *r = malloc(4 * sizeof *r);
    r[0] = (Region){0x8000, 0x9000, 1, 1, 1};
    r[1] = (Region){0x10000, 0x20000, 1, 1, 0};
    r[2] = (Region){0x30000, 0x40000, 1, 1, 0};
    r[3] = (Region){0x20000, 0x20000, 1, 1, 0};
    Memory m = memory_of(r, 4, 0x40000);
    memcpy(m.bytes + 0x8000, words, size);
    Regs g = {.pc = 0x8000};
    int ended;
    uint32_t done = run(&g, &m, count, &ended);
    printf("%s: %u steps, pc %08x, x5 %08x, x10 %08x, first word %08x\n", name, done, g.pc, g.x[5], g.x[10], get(m.bytes + 0x10000, 4));
    return 0;
}

static uint8_t *read_file(const char *name, size_t *size) {
    FILE *file = fopen(name, "rb");
    if (!file) { perror(name); exit(2); }
    fseek(file, 0, SEEK_END);
    *size = ftell(file);
    rewind(file);
    uint8_t *bytes = malloc(*size + 1);
    if (fread(bytes, 1, *size, file) != *size) { perror(name); exit(2); }
    fclose(file);
    return bytes;
}

/* The segments of the file, the stack and the heap, and where the program begins. */
static Memory loaded(const uint8_t *file, uint32_t size, uint32_t *entry) {
    Region *r = calloc(MOST_REGIONS, sizeof *r);
    const uint8_t *table = file + get(file + 28, 4);
    int headers = get(file + 44, 2), count = 0;
    uint32_t highest = 0;
    for (int i = 0; i < headers; i++) {
        const uint8_t *h = table + 32 * i;
        uint32_t at = get(h + 8, 4), len = get(h + 20, 4), flags = get(h + 24, 4);
        if (get(h, 4) != 1 || !len) continue;
        if (at + len > highest) highest = at + len;
        if (count + 2 == MOST_REGIONS || at + len > size - STACK) { fprintf(stderr, "the program is refused\n"); exit(2); }
        r[count++] = (Region){at, at + len, flags & 4, flags & 2, flags & 1};
    }
    uint32_t heap = (highest + PAGE - 1) / PAGE * PAGE;
    r[count++] = (Region){size - STACK, size, 1, 1, 0};
    r[count++] = (Region){heap, heap, 1, 1, 0};
    Memory m = memory_of(r, count, size);
    for (int i = 0; i < headers; i++) {
        const uint8_t *h = table + 32 * i;
        if (get(h, 4) == 1) memcpy(m.bytes + get(h + 8, 4), file + get(h + 4, 4), get(h + 16, 4));
    }
    *entry = get(file + 24, 4);
    return m;
}

/* The argument `guest` at the memory's end; gives the stack pointer. */
static uint32_t place_arguments(Memory *m, uint32_t size) {
    uint32_t text = size - 6, pointer = (text - 4 * 6) / 16 * 16, words[] = {1, text, 0, 0, 0, 0};
    memcpy(m->bytes + text, "guest", 6);
    memcpy(m->bytes + pointer, words, sizeof words);
    return pointer;
}

typedef struct { const uint8_t *bytes; size_t size, at; } Input;

static uint32_t answer_read(Memory *m, uint32_t at, uint32_t len, Input *input) {
    size_t rest = input->size - input->at;
    uint32_t count = len < rest ? len : rest;
    if (count > 4096) count = 4096;
    if (count && !holder(m, at, count, WRITE)) return (uint32_t)-14;
    memcpy(m->bytes + at, input->bytes + input->at, count);
    forget(m, at, count);
    input->at += count;
    return count;
}

static uint32_t answer_write(const Memory *m, uint32_t fd, uint32_t at, uint32_t len, FILE *output) {
    if (len && !holder(m, at, len, READ)) return (uint32_t)-14;
    if (output && fd == 1) fwrite(m->bytes + at, 1, len, output);
    return len;
}

static uint32_t move_break(Memory *m, uint32_t at) {
    Region *heap = &m->regions[m->count - 1], *stack = &m->regions[m->count - 2];
    if (at < heap->start || at > stack->start) return heap->end;
    if (at < heap->end) memset(m->bytes + at, 0, heap->end - at);
    return heap->end = at;
}

static int run_file(char **words, FILE *output) {
    size_t size, unused;
    uint32_t mib = strtoul(words[1], NULL, 10) << 20, most = strtoul(words[2], NULL, 10), entry, calls = 0, instructions = 0;
    uint8_t *file = read_file(words[0], &unused);
    Input input = {read_file(words[3], &size), 0, 0};
    input.size = size;
    Memory m = loaded(file, mib, &entry);
    Regs g = {.pc = entry};
    g.x[2] = place_arguments(&m, mib);
    char status[16] = "None";
    while (instructions < most) {
        int ended;
        instructions += run(&g, &m, most - instructions, &ended);
        if (ended == ON) break;
        instructions++;
        if (ended != CALL) break;
        uint32_t *x = g.x, nr = x[17];
        g.has_reserved = 0;
        g.pc += 4;
        if (nr == 214) { x[10] = move_break(&m, x[10]); continue; }
        calls++;
        if (nr == 93 || nr == 94) { snprintf(status, sizeof status, "Some(%u)", x[10] & 255); break; }
        x[10] = nr == 63 ? answer_read(&m, x[11], x[12], &input) : nr == 64 ? answer_write(&m, x[10], x[11], x[12], output) : (uint32_t)-38;
    }
    printf("%u calls, %u instructions, status %s\n", calls, instructions, status);
    return 0;
}

int main(int argc, char **argv) {
    if (argc == 3) return run_words(argv[1], strtoul(argv[2], NULL, 10));
    if (argc != 5 && argc != 6) return 1;
    FILE *output = argc == 6 ? fopen(argv[5], "wb") : NULL;
    if (argc == 6 && !output) return 2;
    int status = run_file(argv + 1, output);
    if (output && fclose(output)) return 2;
    return status;
}
