/* The guests of crates/nv_rows/src/machine.rt, by name: their words, and how many bytes these have. */
#ifndef MACHINE_GUESTS_H
#define MACHINE_GUESTS_H

#include <stddef.h>
#include <stdint.h>
#include <string.h>

static const uint32_t COUNT[] = {0x400002b7, 0xfff28293, 0xfe029ee3, 0x00000073};
static const uint32_t MEMORY[] = {0x00020437, 0x000103b7, 0x0003a303, 0x00130313, 0x0063a023, 0x00438393, 0xfe8398e3, 0xfe9ff06f};
static const uint32_t CALLS[] = {0x00040137, 0x00c000ef, 0x00128293, 0xff9ff06f, 0xff010113, 0x00112623, 0x00350513, 0x00c12083, 0x01010113, 0x00008067};

static inline const uint32_t *guest_words(const char *name, size_t *size) {
    if (!strcmp(name, "memory")) { *size = sizeof MEMORY; return MEMORY; }
    if (!strcmp(name, "calls")) { *size = sizeof CALLS; return CALLS; }
    *size = sizeof COUNT;
    return COUNT;
}

#endif
