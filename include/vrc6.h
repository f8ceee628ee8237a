/* The proved VRC6 board for C11 and C++ hosts: System V x86-64, linked with target/staticlib/libvrc6.a, which
 * host/archive makes.
 *
 * The host keeps one board and two buffers, and lends them to each call. vrc6_read_header and vrc6_fill take no board:
 * they say what a cartridge file needs, and fill the buffers from it. The archive allocates nothing, keeps no pointer
 * and has no state of its own. A board and its buffers must not be used by two threads at once; two boards may be.
 *
 * Every call is proved to end in its answer or in a numbered refusal, for any lengths, addresses, bytes and board
 * values. What no call can check is left to the host:
 *   - a pointer is not null, and what it points at is live and as long as the length beside it says;
 *   - board, fixed, changing and file do not overlap;
 *   - a bool of a board, and chr_writable of the layout that vrc6_create is given, holds 0 or 1.
 */
#ifndef VRC6_H
#define VRC6_H

#include <assert.h>
#include <stdbool.h>
#include <stddef.h>
#include <stdint.h>

#if !defined(__x86_64__) || defined(_WIN32)
#error "the archive is made for System V x86-64"
#endif

#ifdef __cplusplus
extern "C" {
#endif

/* The number of a refusal: the first condition that fails, in this order, but that a file is checked by 5, 6 and 7
 * before the buffers by 2. A refused call leaves board and buffers as they were; vrc6_create leaves the zero board. */
enum {
    VRC6_OK = 0,
    VRC6_LIMITS = 1,  /* a length of the layout is above its limit */
    VRC6_LENGTHS = 2, /* a buffer's length is not the layout's */
    VRC6_VALUES = 3,  /* a value that the call checks is out of range */
    VRC6_ZEROS = 4,   /* vrc6_create only: the first 1,024 bytes of the fixed buffer are not all zero */
    VRC6_HEADER = 5,  /* a file has fewer than 16 bytes, or its first four are not 4E 45 53 1A */
    VRC6_MAPPER = 6,  /* a file's mapper is not 24 or 26, or its header is of the newer edition (NES 2.0) */
    VRC6_FILE = 7     /* a file states a length above its limit, or ends early */
};

/* A mirroring, as settings and a board hold it. */
enum {
    VRC6_VERTICAL = 0,
    VRC6_HORIZONTAL = 1,
    VRC6_SINGLE_SCREEN_A = 2,
    VRC6_SINGLE_SCREEN_B = 3,
    VRC6_FOUR_SCREEN = 4
};

/* A revision, as settings hold it: iNES mapper 024, and mapper 026 with address lines 0 and 1 exchanged. */
enum { VRC6_REVISION_A = 0, VRC6_REVISION_B = 1 };

/* The name of a level. */
enum { VRC6_SILENT = 0, VRC6_HELD = 1, VRC6_PLAYING = 2 };

/* The structs below have the fields of the structs in crates/, under the same names and in the same order. */

/* Byte lengths as the cartridge states them. */
typedef struct {
    uint32_t prg_rom;  /* 0 to 262,144 */
    uint32_t chr;      /* 0 to 262,144 */
    bool chr_writable; /* CHR is RAM, and lies in the changing buffer */
    uint32_t prg_ram;  /* 0 to 8,192 */
    uint32_t ciram;    /* 0 to 4,096; 0 means 2,048 */
} Vrc6MemoryLayout;

/* What a board is made with, beside its memory. With open_bus a CPU read where nothing is there gives the byte that the
 * bus holds, as a console does, and not 0: see vrc6_cpu_read. Nothing else depends on it. */
typedef struct {
    uint8_t mirroring; /* 0 to 4, VRC6_VERTICAL to VRC6_FOUR_SCREEN */
    uint8_t revision;  /* VRC6_REVISION_A or VRC6_REVISION_B */
    uint8_t open_bus;  /* 0 or 1 */
} Vrc6Settings;

typedef struct {
    uint8_t banking_mode;
    uint8_t prg_banks[2]; /* 0 to 15, 16 KiB at $8000; 0 to 31, 8 KiB at $C000 */
    uint8_t chr[8];
    uint8_t mirroring; /* 0 to 4 */
    uint8_t nt_banks[4];
    bool revision_b; /* true for revision B */
} Vrc6Banking;

typedef struct {
    uint8_t reload;
    uint16_t prescalar_counter; /* 0 to 341 */
    uint8_t counter;
    bool irq_pending; /* the cartridge asks for an interrupt */
    bool enabled;
    bool enabled_after_ack;
    bool cycle_mode;
} Vrc6Irq;

typedef struct {
    bool enabled;
    uint8_t volume;     /* 0 to 15 */
    uint8_t duty_cycle; /* 0 to 7 */
    bool ignore_duty;
    uint16_t frequency; /* 0 to 4,095 */
    uint16_t timer;     /* 1 to 4,096 */
    uint8_t step;       /* 0 to 15 */
    uint8_t freq_shift; /* 0, 4 or 8 */
} Vrc6Pulse;

typedef struct {
    bool enabled;
    uint8_t accum;
    uint8_t accum_rate; /* 0 to 63 */
    uint16_t frequency; /* 0 to 4,095 */
    uint16_t timer;     /* 1 to 4,096 */
    uint8_t step;       /* 0 to 13 */
    uint8_t freq_shift; /* 0, 4 or 8 */
} Vrc6Saw;

typedef struct {
    Vrc6Pulse pulse1;
    Vrc6Pulse pulse2;
    Vrc6Saw saw;
    bool halt;
    float out; /* the last sum, a whole number 0 to 61 */
} Vrc6Audio;

/* A page entry: bits 0 to 29 an offset that runs on from the fixed buffer into the changing one, bit 31 set if the page
 * takes writes, bit 30 clear. The entry 0 means that nothing is there, and shows the page of zeros. */
typedef struct {
    Vrc6MemoryLayout layout;
    uint32_t prg_pages[64]; /* one for each 1,024 CPU addresses */
    uint32_t chr_pages[16]; /* one for each 1,024 picture addresses */
    Vrc6Banking banking;
    Vrc6Irq irq;
    Vrc6Audio audio;
    bool open_bus; /* as the settings said; only vrc6_create sets it */
} Vrc6Board;

/* Whether the interrupt counter ticked. Refused: false. */
typedef struct {
    bool ticked;
    uint8_t refusal;
} Vrc6Tick;

/* The byte that was asked for. Refused: 0. */
typedef struct {
    uint8_t byte;
    uint8_t refusal;
} Vrc6Peeked;

/* The level, and which of VRC6_SILENT, VRC6_HELD and VRC6_PLAYING it is. Refused: 0 and 0. */
typedef struct {
    float level;
    uint8_t name;
    uint8_t refusal;
} Vrc6Level;

/* The clocks until the counter next sets irq_pending, if it is armed; vrc6_forecast names the one state where they are one
 * short. Not armed, or refused: 0 and false. */
typedef struct {
    uint32_t clocks;
    bool armed;
    uint8_t refusal;
} Vrc6Forecast;

/* The 1,024 bytes from offset of the changing buffer if changing, else of the fixed one. Refused: 0 and false. */
typedef struct {
    uint32_t offset;
    bool changing;
    uint8_t refusal;
} Vrc6PageAt;

/* What the header of a cartridge file states. Refused: all 0 but the number. */
typedef struct {
    Vrc6MemoryLayout layout;
    uint8_t mirroring;  /* VRC6_VERTICAL, VRC6_HORIZONTAL or VRC6_FOUR_SCREEN */
    uint8_t revision;   /* VRC6_REVISION_A or VRC6_REVISION_B */
    uint32_t prg_start; /* where PRG begins in the file */
    uint32_t chr_start; /* where PRG ends and CHR begins, also where CHR is writable and takes no bytes of the file */
    uint8_t refusal;
} Vrc6Cartridge;

/* The lengths that the two buffers of a layout must have. A region is rounded up to whole pages of 1,024.
 * Fixed: a page of zeros, PRG ROM, CHR if it is not writable.
 * Changing: PRG RAM, CHR if it is writable, CIRAM. */
static inline size_t vrc6_whole_pages(uint32_t n) {
    return ((size_t)n + 1023) / 1024 * 1024;
}

static inline size_t vrc6_fixed_length(Vrc6MemoryLayout layout) {
    return 1024 + vrc6_whole_pages(layout.prg_rom) + (layout.chr_writable ? 0 : vrc6_whole_pages(layout.chr));
}

static inline size_t vrc6_changing_length(Vrc6MemoryLayout layout) {
    return vrc6_whole_pages(layout.prg_ram) + (layout.chr_writable ? vrc6_whole_pages(layout.chr) : 0) +
           vrc6_whole_pages(layout.ciram == 0 ? 2048 : layout.ciram);
}

/* The settings that a cartridge states. They are without open_bus: a host that wants it sets it in them. */
static inline Vrc6Settings vrc6_settings_of(Vrc6Cartridge cartridge) {
    Vrc6Settings settings = {cartridge.mirroring, cartridge.revision, 0};
    return settings;
}

/* What the header of a cartridge file (iNES) states; file is the whole file. Of the bytes behind byte 7 it only matters
 * how many there are; more than the header states are allowed. The call changes nothing.
 * Refused by VRC6_HEADER, VRC6_MAPPER or VRC6_FILE. */
Vrc6Cartridge vrc6_read_header(const uint8_t *file, size_t file_len);

/* Fills both buffers for vrc6_create from a cartridge file: fixed by 1,024 zeros, the file's PRG, and its CHR if it is
 * not writable; changing by zeros. Their lengths are those of the layout that vrc6_read_header gives, of any file at most
 * 525,312 and 20,480 bytes. Refused as vrc6_read_header is, then by VRC6_LENGTHS: both buffers stay as they were. */
uint8_t vrc6_fill(const uint8_t *file, size_t file_len, uint8_t *fixed, size_t fixed_len, uint8_t *changing,
                  size_t changing_len);

/* Makes a new board in *board, whatever bytes were there, and changes neither buffer.
 * Refused by VRC6_LIMITS, VRC6_LENGTHS, VRC6_VALUES (a mirroring above 4, a revision or open_bus above 1) or VRC6_ZEROS.
 * Refused, *board is the zero board: every value is 0, open_bus too. Clock, reset, level and forecast refuse it by
 * VRC6_VALUES. To the other calls it is a board of the layout with all lengths 0: they refuse it by VRC6_LENGTHS, unless
 * the buffers have just 1,024 and 2,048 bytes. With such buffers CPU writes from $8000 up refuse it by VRC6_VALUES, and
 * the others take it: it shows the fixed buffer's first page everywhere, and stores nothing. */
uint8_t vrc6_create(Vrc6Board *board, Vrc6MemoryLayout layout, Vrc6Settings settings, const uint8_t *fixed,
                    size_t fixed_len, const uint8_t *changing, size_t changing_len);

/* One CPU clock: the interrupt counter, then the sound. Only board->irq and board->audio change.
 * Refused by VRC6_VALUES (interrupt and sound). */
Vrc6Tick vrc6_clock(Vrc6Board *board);

/* The same clock, answered by one number: 1 for a tick, 6 for a refusal (by 3), otherwise 0. */
uint8_t vrc6_clock_number(Vrc6Board *board);

/* The byte that a CPU address shows. Nothing is there where the page entry is 0: at $0000 to $5FFF, at $6000 to $7FFF
 * without PRG RAM or while mode bit 7 is clear, and from $8000 up without PRG ROM. There a board with open_bus gives
 * bus, the byte that the CPU's bus holds from before, and a board without it the byte of the fixed buffer's first page,
 * which creation wants 0. Elsewhere bus changes nothing. The call leaves board and buffers as they were.
 * Refused by VRC6_LIMITS, VRC6_LENGTHS or VRC6_VALUES (the page entry of the address): the byte is 0 then, not bus. */
Vrc6Peeked vrc6_cpu_read(Vrc6Board *board, const uint8_t *fixed, size_t fixed_len, const uint8_t *changing,
                         size_t changing_len, uint16_t addr, uint8_t bus);

/* The byte that a picture address shows, by its low 14 bits, with open_bus as without it. The call leaves board and
 * buffers as they were. Refused as vrc6_cpu_read is. */
Vrc6Peeked vrc6_picture_read(Vrc6Board *board, const uint8_t *fixed, size_t fixed_len, const uint8_t *changing,
                             size_t changing_len, uint16_t addr);

/* Stores val where the page of a CPU address takes writes, then writes the register of the address, if it has one.
 * At most one byte of the changing buffer changes.
 * Refused by VRC6_LIMITS, VRC6_LENGTHS or VRC6_VALUES (the page entry, and from $8000 up all of banking, irq and
 * audio). */
uint8_t vrc6_cpu_write(Vrc6Board *board, const uint8_t *fixed, size_t fixed_len, uint8_t *changing,
                       size_t changing_len, uint16_t addr, uint8_t val);

/* Stores val where the page of a picture address takes writes. The call leaves the board as it was, and changes at most
 * one byte of the changing buffer. Refused as vrc6_cpu_read is. */
uint8_t vrc6_picture_write(Vrc6Board *board, const uint8_t *fixed, size_t fixed_len, uint8_t *changing,
                           size_t changing_len, uint16_t addr, uint8_t val);

/* Reset, soft or hard: board->irq becomes all 0, board->audio.halt false, and nothing else changes.
 * Refused by VRC6_VALUES (interrupt and sound). */
uint8_t vrc6_reset(Vrc6Board *board);

/* The level of the sound now. The call leaves the board as it was. Refused by VRC6_VALUES (interrupt and sound). */
Vrc6Level vrc6_level(Vrc6Board *board);

/* How many calls of vrc6_clock it takes until the counter next sets irq_pending, if no write to it and no reset comes
 * between. In one state it says 0 where one clock is needed: line mode, prescaler 0 and counter 255.
 * The call leaves the board as it was. Refused by VRC6_VALUES (interrupt and sound). */
Vrc6Forecast vrc6_forecast(Vrc6Board *board);

/* Where the page of a picture address lies, for a renderer that takes many bytes of it. The call leaves board and buffers
 * as they were, and the place stays the same until the next vrc6_cpu_write. Refused as vrc6_cpu_read is. */
Vrc6PageAt vrc6_page_view(Vrc6Board *board, const uint8_t *fixed, size_t fixed_len, const uint8_t *changing,
                          size_t changing_len, uint16_t addr);

/* What the archive was compiled for; host/c/sizes.c and fields.c see that it is. */
#define VRC6_AT(type, field, at) static_assert(offsetof(type, field) == (at), #type "." #field)
#define VRC6_SIZE(type, size) static_assert(sizeof(type) == (size), #type)

VRC6_SIZE(Vrc6MemoryLayout, 20);
VRC6_AT(Vrc6MemoryLayout, prg_rom, 0);
VRC6_AT(Vrc6MemoryLayout, chr, 4);
VRC6_AT(Vrc6MemoryLayout, chr_writable, 8);
VRC6_AT(Vrc6MemoryLayout, prg_ram, 12);
VRC6_AT(Vrc6MemoryLayout, ciram, 16);

VRC6_SIZE(Vrc6Settings, 3);
VRC6_AT(Vrc6Settings, mirroring, 0);
VRC6_AT(Vrc6Settings, revision, 1);
VRC6_AT(Vrc6Settings, open_bus, 2);

VRC6_SIZE(Vrc6Banking, 17);
VRC6_AT(Vrc6Banking, banking_mode, 0);
VRC6_AT(Vrc6Banking, prg_banks, 1);
VRC6_AT(Vrc6Banking, chr, 3);
VRC6_AT(Vrc6Banking, mirroring, 11);
VRC6_AT(Vrc6Banking, nt_banks, 12);
VRC6_AT(Vrc6Banking, revision_b, 16);

VRC6_SIZE(Vrc6Irq, 10);
VRC6_AT(Vrc6Irq, reload, 0);
VRC6_AT(Vrc6Irq, prescalar_counter, 2);
VRC6_AT(Vrc6Irq, counter, 4);
VRC6_AT(Vrc6Irq, irq_pending, 5);
VRC6_AT(Vrc6Irq, enabled, 6);
VRC6_AT(Vrc6Irq, enabled_after_ack, 7);
VRC6_AT(Vrc6Irq, cycle_mode, 8);

VRC6_SIZE(Vrc6Pulse, 10);
VRC6_AT(Vrc6Pulse, enabled, 0);
VRC6_AT(Vrc6Pulse, volume, 1);
VRC6_AT(Vrc6Pulse, duty_cycle, 2);
VRC6_AT(Vrc6Pulse, ignore_duty, 3);
VRC6_AT(Vrc6Pulse, frequency, 4);
VRC6_AT(Vrc6Pulse, timer, 6);
VRC6_AT(Vrc6Pulse, step, 8);
VRC6_AT(Vrc6Pulse, freq_shift, 9);

VRC6_SIZE(Vrc6Saw, 10);
VRC6_AT(Vrc6Saw, enabled, 0);
VRC6_AT(Vrc6Saw, accum, 1);
VRC6_AT(Vrc6Saw, accum_rate, 2);
VRC6_AT(Vrc6Saw, frequency, 4);
VRC6_AT(Vrc6Saw, timer, 6);
VRC6_AT(Vrc6Saw, step, 8);
VRC6_AT(Vrc6Saw, freq_shift, 9);

VRC6_SIZE(Vrc6Audio, 36);
VRC6_AT(Vrc6Audio, pulse1, 0);
VRC6_AT(Vrc6Audio, pulse2, 10);
VRC6_AT(Vrc6Audio, saw, 20);
VRC6_AT(Vrc6Audio, halt, 30);
VRC6_AT(Vrc6Audio, out, 32);

VRC6_SIZE(Vrc6Board, 408);
VRC6_AT(Vrc6Board, layout, 0);
VRC6_AT(Vrc6Board, prg_pages, 20);
VRC6_AT(Vrc6Board, chr_pages, 276);
VRC6_AT(Vrc6Board, banking, 340);
VRC6_AT(Vrc6Board, irq, 358);
VRC6_AT(Vrc6Board, audio, 368);
VRC6_AT(Vrc6Board, open_bus, 404);

VRC6_SIZE(Vrc6Tick, 2);
VRC6_AT(Vrc6Tick, refusal, 1);
VRC6_SIZE(Vrc6Peeked, 2);
VRC6_AT(Vrc6Peeked, refusal, 1);
VRC6_SIZE(Vrc6Level, 8);
VRC6_AT(Vrc6Level, name, 4);
VRC6_AT(Vrc6Level, refusal, 5);
VRC6_SIZE(Vrc6Forecast, 8);
VRC6_AT(Vrc6Forecast, armed, 4);
VRC6_AT(Vrc6Forecast, refusal, 5);
VRC6_SIZE(Vrc6PageAt, 8);
VRC6_AT(Vrc6PageAt, changing, 4);
VRC6_AT(Vrc6PageAt, refusal, 5);

VRC6_SIZE(Vrc6Cartridge, 36);
VRC6_AT(Vrc6Cartridge, layout, 0);
VRC6_AT(Vrc6Cartridge, mirroring, 20);
VRC6_AT(Vrc6Cartridge, revision, 21);
VRC6_AT(Vrc6Cartridge, prg_start, 24);
VRC6_AT(Vrc6Cartridge, chr_start, 28);
VRC6_AT(Vrc6Cartridge, refusal, 32);

#undef VRC6_AT
#undef VRC6_SIZE

#ifdef __cplusplus
}
#endif

#endif
