/* A made-up cartridge and a way to count what is not as expected, for the programs of this folder. */
#ifndef CART_H
#define CART_H

#include "../../include/vrc6.h"
#include <stdio.h>
#include <string.h>

enum {
    PRG_ROM = 131072,
    CHR = 131072,
    PRG_RAM = 8192,
    CIRAM = 2048,
    FIXED = 1024 + PRG_ROM + CHR,
    CHANGING = PRG_RAM + CIRAM,
    /* Where regions start, counted from the fixed buffer on into the changing one. */
    CHR_START = 1024 + PRG_ROM,
    CIRAM_START = FIXED + PRG_RAM
};

/* Marks a page entry that takes writes. */
#define WRITABLE UINT32_C(0x80000000)

/* What the bus holds whenever a program reads: no byte of the cartridge is this one. */
#define BUS 0xA5

static const Vrc6MemoryLayout cart = {
    .prg_rom = PRG_ROM, .chr = CHR, .chr_writable = false, .prg_ram = PRG_RAM, .ciram = CIRAM};

/* One byte more than the cartridge needs, so that a length that is too long still points at memory. */
static uint8_t fixed[FIXED + 1];
static uint8_t changing[CHANGING + 1];

/* Each page of ROM holds its number in its own region, the changing buffer $5A. */
static inline void insert_cart(void) {
    memset(fixed, 0, 1024);
    for (size_t i = 0; i < PRG_ROM / 1024; i++) memset(fixed + 1024 + 1024 * i, (int)i, 1024);
    for (size_t i = 0; i < CHR / 1024; i++) memset(fixed + CHR_START + 1024 * i, (int)i, 1024);
    memset(changing, 0x5A, sizeof changing);
}

static inline uint8_t make_with(Vrc6Board *board, Vrc6Settings settings) {
    return vrc6_create(board, cart, settings, fixed, FIXED, changing, CHANGING);
}

static inline uint8_t make(Vrc6Board *board) {
    Vrc6Settings settings = {.mirroring = VRC6_VERTICAL, .revision = VRC6_REVISION_A, .open_bus = 0};
    return make_with(board, settings);
}

static inline uint8_t cpu_write(Vrc6Board *board, uint16_t addr, uint8_t val) {
    return vrc6_cpu_write(board, fixed, FIXED, changing, CHANGING, addr, val);
}

static inline Vrc6Peeked cpu_read(Vrc6Board *board, uint16_t addr) {
    return vrc6_cpu_read(board, fixed, FIXED, changing, CHANGING, addr, BUS);
}

static inline Vrc6Peeked picture_read(Vrc6Board *board, uint16_t addr) {
    return vrc6_picture_read(board, fixed, FIXED, changing, CHANGING, addr);
}

static inline uint8_t picture_write(Vrc6Board *board, uint16_t addr, uint8_t val) {
    return vrc6_picture_write(board, fixed, FIXED, changing, CHANGING, addr, val);
}

static inline Vrc6PageAt page_view(Vrc6Board *board, uint16_t addr) {
    return vrc6_page_view(board, fixed, FIXED, changing, CHANGING, addr);
}

static int tested, failed;

static inline void expect(const char *what, int64_t seen, int64_t wanted) {
    tested++;
    if (seen == wanted) return;
    failed++;
    printf("%s: %lld instead of %lld\n", what, (long long)seen, (long long)wanted);
}

/* What main ends with. */
static inline int verdict(const char *name) {
    printf("%s: %d tested, %d failed\n", name, tested, failed);
    return failed != 0;
}

#endif
