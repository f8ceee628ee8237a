/* A player's loop in small: a board from a made-up cartridge file, registers written, clocked until the interrupt. */
#include "cart.h"
#include "file.h"
#include <stdlib.h>

static Vrc6Board board;

static void accepted(const char *call, uint8_t refusal) {
    if (refusal == VRC6_OK) return;
    printf("%s: refused by %u\n", call, refusal);
    exit(1);
}

static void write_register(uint16_t addr, uint8_t val) {
    accepted("cpu_write", cpu_write(&board, addr, val));
}

static void show_cpu(const char *what, uint16_t addr) {
    Vrc6Peeked at = cpu_read(&board, addr);
    accepted("cpu_read", at.refusal);
    printf("%s: $%04X reads %u\n", what, addr, at.byte);
}

/* Clocks until the cartridge asks for an interrupt, and counts. */
static uint32_t run_to_interrupt(uint32_t *ticks) {
    uint32_t clocks = 0;
    while (!board.irq.irq_pending && clocks < 100000) {
        Vrc6Tick tick = vrc6_clock(&board);
        accepted("clock", tick.refusal);
        *ticks += tick.ticked;
        clocks++;
    }
    return clocks;
}

static void banks(void) {
    show_cpu("created", 0xE000);
    show_cpu("PRG RAM off, 165 on the bus", 0x6123);
    write_register(0x8000, 3);
    show_cpu("first PRG number 3", 0x8000);
    write_register(0xB003, 0xA0);
    write_register(0x6123, 77);
    show_cpu("PRG RAM on, 77 written", 0x6123);
}

static void interrupt(void) {
    uint32_t ticks = 0;
    write_register(0xF000, 0xFE);
    write_register(0xF001, 2);
    Vrc6Forecast next = vrc6_forecast(&board);
    accepted("forecast", next.refusal);
    uint32_t clocks = run_to_interrupt(&ticks);
    expect("clocks until the interrupt", clocks, next.clocks);
    printf("reload $FE, control 2: forecast %u, interrupt after %u clocks, %u ticks\n", next.clocks, clocks, ticks);
    write_register(0xF002, 0);
    printf("acknowledged: pending %d, armed %d\n", board.irq.irq_pending, vrc6_forecast(&board).armed);
}

static void sound(void) {
    static const char *const names[] = {"silent", "held", "playing"};
    write_register(0x9000, 0x8F);
    write_register(0x9002, 0x80);
    accepted("clock", vrc6_clock(&board).refusal);
    Vrc6Level now = vrc6_level(&board);
    accepted("level", now.refusal);
    printf("one pulse at volume 15: %s, level %.7f\n", names[now.name], (double)now.level);
}

/* The first byte of the page that a picture address shows. */
static uint8_t page_begins(uint16_t addr) {
    Vrc6PageAt at = page_view(&board, addr);
    accepted("page_view", at.refusal);
    const uint8_t *page = (at.changing ? changing : fixed) + at.offset;
    return page[0];
}

static void pages(void) {
    write_register(0xD001, 9);
    printf("CHR 1 = 9: the page at picture $0400 begins with %u\n", page_begins(0x0400));
    accepted("picture_write", picture_write(&board, 0x2400, 33));
    printf("33 written to nametable $2400: its page begins with %u\n", page_begins(0x2400));
}

/* The file that a host would read from disk: each page of PRG and of CHR holds its number. */
static size_t load_file(void) {
    size_t length = make_file(PRG_ROM / PRG_UNIT, CHR / CHR_UNIT, 24, VERTICAL_BIT);
    for (size_t i = 0; i < (PRG_ROM + CHR) / 1024; i++) memset(file + HEADER + 1024 * i, (int)(i % 128), 1024);
    return length;
}

static void start(size_t length) {
    Vrc6Cartridge read = vrc6_read_header(file, length);
    accepted("read_header", read.refusal);
    printf("file %zu bytes: PRG at %u, CHR at %u, mirroring %u, revision %u\n", length, read.prg_start, read.chr_start,
           read.mirroring, read.revision);
    size_t fixed_len = vrc6_fixed_length(read.layout), changing_len = vrc6_changing_length(read.layout);
    printf("fixed %zu bytes, changing %zu bytes\n", fixed_len, changing_len);
    accepted("fill", vrc6_fill(file, length, fixed, fixed_len, changing, changing_len));
    Vrc6Settings settings = vrc6_settings_of(read);
    settings.open_bus = 1;
    accepted("create", vrc6_create(&board, read.layout, settings, fixed, fixed_len, changing, changing_len));
}

int main(void) {
    start(load_file());
    banks();
    interrupt();
    sound();
    pages();
    return failed != 0;
}
