/* A made-up cartridge file in memory, for the programs of this folder. */
#ifndef FILE_H
#define FILE_H

#include <stddef.h>
#include <stdint.h>
#include <string.h>

enum {
    HEADER = 16,
    TRAINER = 512,
    PRG_UNIT = 16384,
    CHR_UNIT = 8192,
    /* The longest file that a board can be of. */
    LONGEST = HEADER + TRAINER + 262144 + 262144
};

/* Bits of header byte 6. */
enum { VERTICAL_BIT = 1, TRAINER_BIT = 4, FOUR_SCREENS_BIT = 8 };

/* One byte more than the longest file has. */
static uint8_t file[LONGEST + 1];

/* What stands in the file at a place behind the header: 64 neighbouring pages all differ in each byte. */
static inline uint8_t stamp(size_t at) {
    return (uint8_t)(at + 37 * (at / 256) + 11 * (at / 65536));
}

static inline void write_mapper(int mapper, int flags) {
    file[6] = (uint8_t)(mapper % 16 * 16 + flags);
    file[7] = (uint8_t)(mapper / 16 * 16);
}

/* Makes the file anew, and says how long it is by its header. */
static inline size_t make_file(int prg_units, int chr_units, int mapper, int flags) {
    static const uint8_t begin[] = {0x4E, 0x45, 0x53, 0x1A};
    memset(file, 0, HEADER);
    memcpy(file, begin, sizeof begin);
    file[4] = (uint8_t)prg_units;
    file[5] = (uint8_t)chr_units;
    write_mapper(mapper, flags);
    for (size_t at = HEADER; at < sizeof file; at++) file[at] = stamp(at);
    size_t trainer = flags & TRAINER_BIT ? TRAINER : 0;
    return HEADER + trainer + (size_t)prg_units * PRG_UNIT + (size_t)chr_units * CHR_UNIT;
}

#endif
