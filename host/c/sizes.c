/* Whether the archive has every field of a board where vrc6.h declares it, and of a cartridge. This half: what the
 * archive writes, C finds in the field and nowhere else. The other half is fields.c. */
#include "cart.h"
#include "fields.h"
#include "file.h"

/* A board with memory behind it that no call may touch. */
typedef union {
    Vrc6Board board;
    uint8_t bytes[sizeof(Vrc6Board) + 64];
} Room;

/* Creation in a room of zeros and in one of ones: each field's bytes come out the same, and what lies behind stays. */
static void created_whole(void) {
    static Room zeros, ones;
    memset(&zeros, 0x00, sizeof zeros);
    memset(&ones, 0xFF, sizeof ones);
    expect("create", make(&zeros.board), VRC6_OK);
    expect("create", make(&ones.board), VRC6_OK);
    for (int i = 0; i < FIELDS; i++)
        expect(fields[i].name, memcmp(zeros.bytes + fields[i].at, ones.bytes + fields[i].at, fields[i].size), 0);
    for (size_t i = sizeof(Vrc6Board); i < sizeof(Room); i++) {
        expect("behind a board", zeros.bytes[i], 0x00);
        expect("behind a board", ones.bytes[i], 0xFF);
    }
}

/* Creation from a layout whose lengths all differ, and are no whole pages. */
static void created_values(bool chr_writable, bool open_bus) {
    static uint8_t ram[2048 + 66560 + 3072];
    Vrc6MemoryLayout layout = {
        .prg_rom = PRG_ROM - 1000, .chr = 65537, .chr_writable = chr_writable, .prg_ram = 2048, .ciram = 3000};
    size_t fixed_len = 1024 + PRG_ROM + (chr_writable ? 0 : 66560);
    size_t changing_len = 2048 + (chr_writable ? 66560 : 0) + 3072;
    expect("fixed length", (int64_t)vrc6_fixed_length(layout), (int64_t)fixed_len);
    expect("changing length", (int64_t)vrc6_changing_length(layout), (int64_t)changing_len);
    Vrc6Board b;
    Vrc6Settings settings = {.mirroring = VRC6_HORIZONTAL, .revision = VRC6_REVISION_B, .open_bus = open_bus};
    uint8_t refusal = vrc6_create(&b, layout, settings, fixed, fixed_len, ram, changing_len);
    expect("create", refusal, VRC6_OK);
    expect("layout.prg_rom", b.layout.prg_rom, layout.prg_rom);
    expect("layout.chr", b.layout.chr, layout.chr);
    expect("layout.chr_writable", b.layout.chr_writable, chr_writable);
    expect("layout.prg_ram", b.layout.prg_ram, layout.prg_ram);
    expect("layout.ciram", b.layout.ciram, layout.ciram);
    expect("banking.mirroring", b.banking.mirroring, VRC6_HORIZONTAL);
    expect("banking.revision_b", b.banking.revision_b, 1);
    expect("chr_pages[0]", b.chr_pages[0], chr_writable ? (int64_t)(WRITABLE | (fixed_len + 2048)) : CHR_START);
    expect("audio.saw.timer", b.audio.saw.timer, 1);
    expect("open_bus", b.open_bus, open_bus);
}

/* A call, and the fields that it changes, with the value that each has then. A field of more than four bytes has to
 * change, to whatever value. */
enum { CLOCK = 1, CLOCK_NUMBER = 2, RESET = 3 };

typedef struct {
    Field field;
    uint32_t value;
} Change;

typedef struct {
    uint16_t addr; /* of a CPU write, or one of the calls above */
    uint8_t val;
    Change changes[6];
} Step;

#define TO(path, value) {FIELD(path), value}
#define PAGES(table) {FIELD(table), 0}
#define FLOAT_15 0x41700000
#define FLOAT_5 0x40A00000

/* From a new board with four screens, whose nametable numbers are 0 1 2 3. It has open_bus, which every call keeps. */
static const Step bank_steps[] = {
    {0x8000, 3, {TO(banking.prg_banks[0], 3), PAGES(prg_pages)}},
    {0xC000, 5, {TO(banking.prg_banks[1], 5), PAGES(prg_pages)}},
    {0xB003, 0x80,
     {TO(banking.banking_mode, 0x80), TO(banking.nt_banks[1], 0), TO(banking.nt_banks[2], 0),
      TO(banking.nt_banks[3], 0), PAGES(prg_pages), PAGES(chr_pages)}},
    {0xB003, 0x20,
     {TO(banking.banking_mode, 0x20), TO(banking.mirroring, VRC6_VERTICAL), TO(banking.nt_banks[1], 1),
      TO(banking.nt_banks[3], 1), PAGES(prg_pages), PAGES(chr_pages)}},
    {0xD000, 11, {TO(banking.chr[0], 11), TO(chr_pages[0], CHR_START + 11 * 1024)}},
    {0xD001, 12, {TO(banking.chr[1], 12), TO(chr_pages[1], CHR_START + 12 * 1024)}},
    {0xD002, 13, {TO(banking.chr[2], 13), TO(chr_pages[2], CHR_START + 13 * 1024)}},
    {0xD003, 14, {TO(banking.chr[3], 14), TO(chr_pages[3], CHR_START + 14 * 1024)}},
    {0xE000, 15, {TO(banking.chr[4], 15), TO(chr_pages[4], CHR_START + 15 * 1024)}},
    {0xE001, 16, {TO(banking.chr[5], 16), TO(chr_pages[5], CHR_START + 16 * 1024)}},
    {0xE002, 17, {TO(banking.chr[6], 17), TO(chr_pages[6], CHR_START + 17 * 1024)}},
    {0xE003, 18, {TO(banking.chr[7], 18), TO(chr_pages[7], CHR_START + 18 * 1024)}},
};

static const Step irq_steps[] = {
    {0xF000, 0xFE, {TO(irq.reload, 0xFE)}},
    {0xF001, 1, {TO(irq.enabled_after_ack, 1)}},
    {0xF001, 4, {TO(irq.enabled_after_ack, 0), TO(irq.cycle_mode, 1)}},
    {0xF001, 2,
     {TO(irq.cycle_mode, 0), TO(irq.enabled, 1), TO(irq.counter, 0xFE), TO(irq.prescalar_counter, 341)}},
    {CLOCK, 0, {TO(irq.prescalar_counter, 338)}},
    {CLOCK_NUMBER, 0, {TO(irq.prescalar_counter, 335)}},
    {0xF001, 6, {TO(irq.cycle_mode, 1), TO(irq.prescalar_counter, 341)}},
    {CLOCK, 1, {TO(irq.counter, 0xFF)}},
    {CLOCK_NUMBER, 1, {TO(irq.counter, 0xFE), TO(irq.irq_pending, 1)}},
    {0xF002, 0, {TO(irq.enabled, 0), TO(irq.irq_pending, 0)}},
    {RESET, 0,
     {TO(irq.reload, 0), TO(irq.counter, 0), TO(irq.prescalar_counter, 0), TO(irq.cycle_mode, 0)}},
};

/* The registers of one pulse, on the sound of a new board. */
#define PULSE_STEPS(at, p)                                                                                             \
    {at, 0x0F, {TO(p.volume, 15)}}, {at, 0x7F, {TO(p.duty_cycle, 7)}}, {at, 0xFF, {TO(p.ignore_duty, 1)}},             \
        {at + 1, 0x34, {TO(p.frequency, 0x034)}}, {at + 2, 0x02, {TO(p.frequency, 0x234)}},                            \
        {at + 2, 0x82, {TO(p.enabled, 1)}},                                                                            \
        {CLOCK, 0, {TO(p.timer, 0x235), TO(p.step, 1), TO(audio.out, FLOAT_15)}}, {CLOCK, 0, {TO(p.timer, 0x234)}},    \
        {at + 2, 0x02, {TO(p.enabled, 0), TO(p.step, 0)}}, {CLOCK, 0, {TO(audio.out, 0)}}

static const Step sound_steps[] = {
    PULSE_STEPS(0x9000, audio.pulse1),
    PULSE_STEPS(0xA000, audio.pulse2),
    {0xB000, 43, {TO(audio.saw.accum_rate, 43)}},
    {0xB001, 2, {TO(audio.saw.frequency, 2)}},
    {0xB002, 0x80, {TO(audio.saw.enabled, 1)}},
    {CLOCK, 0, {TO(audio.saw.timer, 3), TO(audio.saw.step, 1)}},
    {CLOCK, 0, {TO(audio.saw.timer, 2)}},
    {CLOCK, 0, {TO(audio.saw.timer, 1)}},
    {CLOCK, 0, {TO(audio.saw.timer, 3), TO(audio.saw.step, 2), TO(audio.saw.accum, 43), TO(audio.out, FLOAT_5)}},
    {0xB002, 0, {TO(audio.saw.enabled, 0), TO(audio.saw.step, 0), TO(audio.saw.accum, 0)}},
    {0x9003, 4, {TO(audio.pulse1.freq_shift, 8), TO(audio.pulse2.freq_shift, 8), TO(audio.saw.freq_shift, 8)}},
    {0x9003, 5, {TO(audio.halt, 1)}},
    {RESET, 0, {TO(audio.halt, 0)}},
};

static void play(Vrc6Board *board, Step s) {
    if (s.addr == CLOCK) {
        Vrc6Tick tick = vrc6_clock(board);
        expect("clock, refusal", tick.refusal, VRC6_OK);
        expect("clock, ticked", tick.ticked, s.val);
    } else if (s.addr == CLOCK_NUMBER) {
        expect("clock_number", vrc6_clock_number(board), s.val);
    } else if (s.addr == RESET) {
        expect("reset", vrc6_reset(board), VRC6_OK);
    } else {
        expect("cpu_write", cpu_write(board, s.addr, s.val), VRC6_OK);
    }
}

/* Each of at most n changes that are named has happened. What is named is then put back. */
static void changed(const Change *changes, int n, const uint8_t *before, uint8_t *after) {
    for (int i = 0; i < n && changes[i].field.name; i++) {
        Field f = changes[i].field;
        uint32_t value = 0;
        if (f.size <= 4) {
            memcpy(&value, after + f.at, f.size);
            expect(f.name, value, changes[i].value);
        }
        expect(f.name, memcmp(before + f.at, after + f.at, f.size) != 0, 1);
        memcpy(after + f.at, before + f.at, f.size);
    }
}

/* Nothing but what the step names has changed. */
static void compare(Step s, const Room *before, Room *after) {
    changed(s.changes, 6, before->bytes, after->bytes);
    for (int i = 0; i < FIELDS; i++)
        expect(fields[i].name, memcmp(before->bytes + fields[i].at, after->bytes + fields[i].at, fields[i].size), 0);
    for (size_t i = sizeof(Vrc6Board); i < sizeof(Room); i++) expect("behind a board", after->bytes[i], 0xC3);
}

static void walk(const Step *steps, size_t n) {
    static Room room, before, after;
    memset(&room, 0xC3, sizeof room);
    Vrc6Settings settings = {.mirroring = VRC6_FOUR_SCREEN, .revision = VRC6_REVISION_A, .open_bus = 1};
    expect("create", make_with(&room.board, settings), VRC6_OK);
    expect("open_bus", room.board.open_bus, 1);
    for (size_t i = 0; i < n; i++) {
        memcpy(&before, &room, sizeof room);
        play(&room.board, steps[i]);
        memcpy(&after, &room, sizeof room);
        compare(steps[i], &before, &after);
    }
}

#define WALK(steps) walk(steps, sizeof steps / sizeof steps[0])

/* A byte of a file's header with another value, and what the answer has then. */
typedef struct {
    uint8_t at, val;
    Change changes[3];
} Stated;

#define STATES(path, value) {CARTRIDGE_FIELD(path), value}

/* From a file of 2 units of PRG and 3 of CHR, horizontal, of revision A. */
static const Stated stated[] = {
    {4, 5, {STATES(layout.prg_rom, 5 * PRG_UNIT), STATES(chr_start, HEADER + 5 * PRG_UNIT)}},
    {5, 7, {STATES(layout.chr, 7 * CHR_UNIT)}},
    {5, 0, {STATES(layout.chr, CHR_UNIT), STATES(layout.chr_writable, 1)}},
    {6, 0x81, {STATES(mirroring, VRC6_VERTICAL)}},
    {6, 0x82, {{{0}, 0}}},
    {6, 0x84, {STATES(prg_start, HEADER + TRAINER), STATES(chr_start, HEADER + TRAINER + 2 * PRG_UNIT)}},
    {6, 0x88, {STATES(mirroring, VRC6_FOUR_SCREEN), STATES(layout.ciram, 4096)}},
    {6, 0xA0, {STATES(revision, VRC6_REVISION_B)}},
    {7, 0x1F, {{{0}, 0}}},
};

static void read_header_of(Stated s, const Vrc6Cartridge *before) {
    uint8_t first = file[s.at];
    file[s.at] = s.val;
    Vrc6Cartridge after = vrc6_read_header(file, sizeof file);
    file[s.at] = first;
    changed(s.changes, 3, (const uint8_t *)before, (uint8_t *)&after);
    for (int i = 0; i < CARTRIDGE_FIELDS; i++) {
        Field f = cartridge_fields[i];
        expect(f.name, memcmp((const uint8_t *)before + f.at, (uint8_t *)&after + f.at, f.size), 0);
    }
}

static void headers(void) {
    make_file(2, 3, 24, 0);
    Vrc6Cartridge read = vrc6_read_header(file, sizeof file);
    expect("layout.prg_rom", read.layout.prg_rom, 2 * PRG_UNIT);
    expect("layout.chr", read.layout.chr, 3 * CHR_UNIT);
    expect("layout.chr_writable", read.layout.chr_writable, 0);
    expect("layout.prg_ram", read.layout.prg_ram, 8192);
    expect("layout.ciram", read.layout.ciram, 2048);
    expect("mirroring", read.mirroring, VRC6_HORIZONTAL);
    expect("revision", read.revision, VRC6_REVISION_A);
    expect("prg_start", read.prg_start, HEADER);
    expect("chr_start", read.chr_start, HEADER + 2 * PRG_UNIT);
    expect("refusal", read.refusal, VRC6_OK);
    for (size_t i = 0; i < sizeof stated / sizeof stated[0]; i++) read_header_of(stated[i], &read);
}

int main(void) {
    insert_cart();
    created_whole();
    created_values(false, true);
    created_values(true, false);
    WALK(bank_steps);
    WALK(irq_steps);
    WALK(sound_steps);
    headers();
    return verdict("sizes");
}
