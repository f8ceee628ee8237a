/* Bad input: every call is refused by the number that vrc6.h tells, and leaves board and buffers byte for byte as they
 * were; a refused creation leaves the zero board. */
#include "cart.h"
#include "fields.h"
#include "file.h"

static Vrc6Board board;

/* What the call before is compared with. */
static Vrc6Board board_before;
static uint8_t fixed_before[sizeof fixed], changing_before[sizeof changing];

static void remember(void) {
    memcpy(&board_before, &board, sizeof board);
    memcpy(fixed_before, fixed, sizeof fixed);
    memcpy(changing_before, changing, sizeof changing);
}

static void refused(const char *call, int number, int wanted) {
    expect(call, number, wanted);
    expect("board after a refusal", memcmp(&board, &board_before, sizeof board), 0);
    expect("fixed buffer after a refusal", memcmp(fixed, fixed_before, sizeof fixed), 0);
    expect("changing buffer after a refusal", memcmp(changing, changing_before, sizeof changing), 0);
}

/* The calls that take buffers. */
static void all_with_buffers(size_t fixed_len, size_t changing_len, uint16_t addr, int wanted) {
    remember();
    Vrc6Peeked cpu = vrc6_cpu_read(&board, fixed, fixed_len, changing, changing_len, addr, BUS);
    refused("cpu_read", cpu.refusal, wanted);
    expect("cpu_read, byte", cpu.byte, 0);
    Vrc6Peeked picture = vrc6_picture_read(&board, fixed, fixed_len, changing, changing_len, addr);
    refused("picture_read", picture.refusal, wanted);
    expect("picture_read, byte", picture.byte, 0);
    Vrc6PageAt page = vrc6_page_view(&board, fixed, fixed_len, changing, changing_len, addr);
    refused("page_view", page.refusal, wanted);
    expect("page_view, offset", page.offset, 0);
    expect("page_view, changing", page.changing, 0);
    refused("picture_write", vrc6_picture_write(&board, fixed, fixed_len, changing, changing_len, addr, 1), wanted);
    refused("cpu_write", vrc6_cpu_write(&board, fixed, fixed_len, changing, changing_len, addr, 1), wanted);
}

/* The same where nothing is there and where ROM is, without open_bus and with it: a refused read gives no bus byte. */
static void all_with_buffers_and_bus(size_t fixed_len, size_t changing_len, int wanted) {
    for (int i = 0; i < 4; i++) {
        board.open_bus = i & 1;
        all_with_buffers(fixed_len, changing_len, i & 2 ? 0x8000 : 0x6000, wanted);
    }
}

/* The calls that take none. */
static void all_without_buffers(void) {
    remember();
    Vrc6Tick tick = vrc6_clock(&board);
    refused("clock", tick.refusal, VRC6_VALUES);
    expect("clock, ticked", tick.ticked, 0);
    refused("clock_number", vrc6_clock_number(&board), 2 * VRC6_VALUES);
    refused("reset", vrc6_reset(&board), VRC6_VALUES);
    Vrc6Level level = vrc6_level(&board);
    refused("level", level.refusal, VRC6_VALUES);
    expect("level, level", level.level == 0.0f, 1);
    expect("level, name", level.name, 0);
    Vrc6Forecast forecast = vrc6_forecast(&board);
    refused("forecast", forecast.refusal, VRC6_VALUES);
    expect("forecast, clocks", forecast.clocks, 0);
    expect("forecast, armed", forecast.armed, 0);
}

static void wrong_lengths(void) {
    static const size_t off[][2] = {{FIXED - 1, CHANGING}, {FIXED + 1, CHANGING}, {0, CHANGING},
                                    {FIXED, CHANGING - 1}, {FIXED, CHANGING + 1}, {FIXED, 0}};
    make(&board);
    for (size_t i = 0; i < sizeof off / sizeof off[0]; i++)
        all_with_buffers_and_bus(off[i][0], off[i][1], VRC6_LENGTHS);
}

static void layouts_above_limits(void) {
    uint32_t *const lengths[] = {&board.layout.prg_rom, &board.layout.chr, &board.layout.prg_ram, &board.layout.ciram};
    static const uint32_t limits[] = {262144, 262144, 8192, 4096};
    for (int i = 0; i < 4; i++) {
        make(&board);
        *lengths[i] = limits[i] + 1;
        all_with_buffers_and_bus(FIXED, CHANGING, VRC6_LIMITS);
        *lengths[i] = UINT32_MAX;
        all_with_buffers_and_bus(FIXED, CHANGING, VRC6_LIMITS);
    }
}

/* A board of any bytes, each bool 0 or 1. */
static void garbage(uint32_t *seed) {
    for (int i = 0; i < FIELDS; i++)
        for (size_t j = 0; j < fields[i].size; j++) {
            *seed = *seed * 1664525 + 1013904223;
            ((uint8_t *)&board)[fields[i].at + j] = (uint8_t)(*seed >> 24);
        }
    bool *const bools[] = {&board.layout.chr_writable,      &board.banking.revision_b,
                           &board.irq.irq_pending,          &board.irq.enabled,
                           &board.irq.enabled_after_ack,    &board.irq.cycle_mode,
                           &board.audio.pulse1.enabled,     &board.audio.pulse1.ignore_duty,
                           &board.audio.pulse2.enabled,     &board.audio.pulse2.ignore_duty,
                           &board.audio.saw.enabled,        &board.audio.halt,
                           &board.open_bus};
    for (size_t i = 0; i < sizeof bools / sizeof bools[0]; i++) *(uint8_t *)bools[i] &= 1;
}

static void garbage_boards(void) {
    uint32_t seed = 24;
    for (int i = 0; i < 200; i++) {
        uint16_t addr = (uint16_t)(seed >> 16);
        memset(&board, 0xEE, sizeof board);
        garbage(&seed);
        all_with_buffers(FIXED, CHANGING, addr, VRC6_LIMITS);
        all_without_buffers();
        board.layout = cart;
        all_with_buffers(FIXED, CHANGING, addr, VRC6_VALUES);
    }
}

/* A refused creation, in a room of any bytes. */
static void not_created(Vrc6MemoryLayout layout, Vrc6Settings settings, size_t fixed_len, int wanted) {
    static const uint8_t zeros[sizeof board];
    memset(&board, 0xEE, sizeof board);
    remember();
    uint8_t number = vrc6_create(&board, layout, settings, fixed, fixed_len, changing, CHANGING);
    expect("create", number, wanted);
    for (int i = 0; i < FIELDS; i++)
        expect(fields[i].name, memcmp((uint8_t *)&board + fields[i].at, zeros, fields[i].size), 0);
    expect("fixed buffer after create", memcmp(fixed, fixed_before, sizeof fixed), 0);
    expect("changing buffer after create", memcmp(changing, changing_before, sizeof changing), 0);
    all_without_buffers();
    all_with_buffers(FIXED, CHANGING, 0x8000, VRC6_LENGTHS);
}

/* The zero board is one of the layout with all lengths 0. It shows the first page of such buffers, and no bus byte. */
static void zero_board(void) {
    memset(&board, 0, sizeof board);
    fixed[5] = 9;
    Vrc6Peeked at = vrc6_cpu_read(&board, fixed, 1024, changing, 2048, 0x8005, BUS);
    expect("cpu_read of the zero board", at.refusal, VRC6_OK);
    expect("cpu_read of the zero board, byte", at.byte, 9);
    fixed[5] = 0;
    remember();
    refused("cpu_write", vrc6_cpu_write(&board, fixed, 1024, changing, 2048, 0x8000, 1), VRC6_VALUES);
    refused("cpu_write to no page", vrc6_cpu_write(&board, fixed, 1024, changing, 2048, 0x6000, 1), VRC6_OK);
    all_without_buffers();
}

static void refused_creations(void) {
    /* Settings that creation takes, with open_bus: the zero board must be without. */
    static const Vrc6Settings open = {.mirroring = VRC6_FOUR_SCREEN, .revision = VRC6_REVISION_B, .open_bus = 1};
    Vrc6MemoryLayout long_prg = cart, long_chr = cart, long_ram = cart, long_ciram = cart;
    long_prg.prg_rom = 262145;
    long_chr.chr = 262145;
    long_ram.prg_ram = 8193;
    long_ciram.ciram = 4097;
    not_created(long_prg, open, FIXED, VRC6_LIMITS);
    not_created(long_chr, open, FIXED, VRC6_LIMITS);
    not_created(long_ram, open, FIXED, VRC6_LIMITS);
    not_created(long_ciram, open, FIXED, VRC6_LIMITS);
    not_created(cart, open, FIXED - 1, VRC6_LENGTHS);
    not_created(cart, open, 0, VRC6_LENGTHS);
    for (int n = 5; n < 256; n += 2) not_created(cart, (Vrc6Settings){.mirroring = (uint8_t)n}, FIXED, VRC6_VALUES);
    for (int n = 2; n < 256; n += 2) not_created(cart, (Vrc6Settings){.revision = (uint8_t)n}, FIXED, VRC6_VALUES);
    for (int n = 2; n < 256; n++) not_created(cart, (Vrc6Settings){.open_bus = (uint8_t)n}, FIXED, VRC6_VALUES);
    for (int at = 0; at < 1024; at += 93) {
        fixed[at] = 1;
        not_created(cart, open, FIXED, VRC6_ZEROS);
        fixed[at] = 0;
    }
    /* The first failing condition gives the number. */
    static const Vrc6Settings unnamed[] = {
        {.mirroring = 9, .open_bus = 1}, {.revision = 2, .open_bus = 1}, {.open_bus = 2}, {.open_bus = 255}};
    fixed[1023] = 1;
    for (size_t i = 0; i < sizeof unnamed / sizeof unnamed[0]; i++) {
        not_created(long_prg, unnamed[i], FIXED - 1, VRC6_LIMITS);
        not_created(cart, unnamed[i], FIXED - 1, VRC6_LENGTHS);
        not_created(cart, unnamed[i], FIXED, VRC6_VALUES);
    }
    not_created(cart, open, FIXED, VRC6_ZEROS);
    fixed[1023] = 0;
    expect("create", make_with(&board, open), VRC6_OK);
}

/* A file that is refused: the header's answer is all 0 but the number, and fill leaves buffers of whatever lengths. */
static void not_read(size_t length, int wanted) {
    static const size_t lengths[][2] = {{FIXED, CHANGING}, {FIXED + 1, CHANGING}, {FIXED, 0}, {0, 0}};
    static const Vrc6Cartridge zeros;
    Vrc6Cartridge read = vrc6_read_header(file, length);
    expect("read_header", read.refusal, wanted);
    read.refusal = 0;
    for (int i = 0; i < CARTRIDGE_FIELDS; i++) {
        Field f = cartridge_fields[i];
        expect(f.name, memcmp((uint8_t *)&read + f.at, (const uint8_t *)&zeros + f.at, f.size), 0);
    }
    for (int i = 0; i < 4; i++)
        refused("fill", vrc6_fill(file, length, fixed, lengths[i][0], changing, lengths[i][1]), wanted);
}

/* One byte of the header takes another value, and then its first one again. */
static void not_read_with(size_t at, int val, size_t length, int wanted) {
    uint8_t first = file[at];
    file[at] = (uint8_t)val;
    not_read(length, wanted);
    file[at] = first;
}

/* The file of a board with the buffers of cart.h. */
static size_t cart_file(void) {
    return make_file(PRG_ROM / PRG_UNIT, CHR / CHR_UNIT, 24, VERTICAL_BIT);
}

/* 5, also where the mapper is another one and the file ends early. */
static void refused_headers(void) {
    size_t length = cart_file();
    for (size_t n = 0; n < HEADER; n++) not_read(n, VRC6_HEADER);
    for (size_t at = 0; at < 4; at++)
        for (int n = 1; n < 256; n += 2) not_read_with(at, file[at] ^ n, length, VRC6_HEADER);
    write_mapper(25, 0);
    not_read_with(0, 0x4F, HEADER, VRC6_HEADER);
    not_read(HEADER - 1, VRC6_HEADER);
}

/* 6, also where the file ends early or a length is above its limit. */
static void refused_mappers(void) {
    size_t length = cart_file();
    for (int n = 0; n < 256; n++) {
        if (n == 24 || n == 26) continue;
        write_mapper(n, VERTICAL_BIT);
        not_read(length, VRC6_MAPPER);
        not_read_with(4, 17, HEADER, VRC6_MAPPER);
    }
    /* The newer edition, by bits 3 and 2 of byte 7. */
    cart_file();
    for (int n = 0x18; n < 0x1C; n++) not_read_with(7, n, length, VRC6_MAPPER);
    not_read_with(7, 0x18, HEADER, VRC6_MAPPER);
}

/* 7: a file that is too short by its header, or has all that it states and states too much. */
static void refused_files(void) {
    size_t length = cart_file();
    for (size_t n = HEADER; n < length; n += 4093) not_read(n, VRC6_FILE);
    not_read(length - 1, VRC6_FILE);
    not_read_with(6, 0x80 | TRAINER_BIT, length + TRAINER - 1, VRC6_FILE);
    not_read(make_file(17, 0, 24, 0), VRC6_FILE);
    not_read(make_file(0, 33, 26, TRAINER_BIT), VRC6_FILE);
    cart_file();
    for (int n = 17; n < 256; n += 17) not_read_with(4, n, sizeof file, VRC6_FILE);
    for (int n = 33; n < 256; n += 37) not_read_with(5, n, sizeof file, VRC6_FILE);
}

/* 2: the file is accepted, and a buffer is not of its layout's length. */
static void refused_fills(void) {
    static const size_t off[][2] = {{FIXED - 1, CHANGING}, {FIXED + 1, CHANGING}, {0, CHANGING}, {FIXED, CHANGING - 1},
                                    {FIXED, CHANGING + 1}, {FIXED - 1, CHANGING + 1}, {FIXED, 0}, {0, 0}};
    size_t length = cart_file();
    for (size_t i = 0; i < sizeof off / sizeof off[0]; i++)
        refused("fill", vrc6_fill(file, length, fixed, off[i][0], changing, off[i][1]), VRC6_LENGTHS);
    expect("fill", vrc6_fill(file, length, fixed, FIXED, changing, CHANGING), VRC6_OK);
    expect("fixed buffer after fill", memcmp(fixed + 1024, file + HEADER, PRG_ROM + CHR), 0);
}

/* Before it no byte of the buffers is 0, so that a zero filled in would show. */
static void files(void) {
    memset(fixed, 0xEE, sizeof fixed);
    memset(changing, 0xEE, sizeof changing);
    remember();
    refused_headers();
    refused_mappers();
    refused_files();
    refused_fills();
}

int main(void) {
    insert_cart();
    wrong_lengths();
    layouts_above_limits();
    garbage_boards();
    refused_creations();
    zero_board();
    files();
    return verdict("refused");
}
