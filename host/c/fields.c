/* Whether the archive has every field of a board where vrc6.h declares it. This half: what C sets in one field, the
 * archive reads, and answers by. The other half is sizes.c. */
#include "cart.h"

static Vrc6Board made;

static uint32_t bits(float f) {
    uint32_t n;
    memcpy(&n, &f, 4);
    return n;
}

/* Sets one field of a copy of a board; answer may name the copy, b. */
#define SET(base, field, value, answer, wanted)                                                                        \
    do {                                                                                                               \
        Vrc6Board b = base;                                                                                            \
        b.field = (value);                                                                                             \
        expect(#field, (answer), (wanted));                                                                            \
    } while (0)

/* A call on a board, and then a value of it. */
#define WRITTEN(addr, val, path) (cpu_write(&b, addr, val) == VRC6_OK ? (int64_t)b.path : -1)
#define CLOCKED(path) (vrc6_clock(&b).refusal == VRC6_OK ? (int64_t)b.path : -1)
#define SUM() (vrc6_clock(&b).refusal == VRC6_OK ? (int64_t)bits(b.audio.out) : -1)

static void layout(void) {
    SET(made, layout.prg_rom, 262145, cpu_read(&b, 0).refusal, VRC6_LIMITS);
    SET(made, layout.chr, 262145, cpu_read(&b, 0).refusal, VRC6_LIMITS);
    SET(made, layout.prg_ram, 8193, cpu_read(&b, 0).refusal, VRC6_LIMITS);
    SET(made, layout.ciram, 4097, cpu_read(&b, 0).refusal, VRC6_LIMITS);
    SET(made, layout.chr_writable, true, cpu_read(&b, 0).refusal, VRC6_LENGTHS);
    /* A length is rounded up to whole pages. */
    SET(made, layout.prg_rom, PRG_ROM - 1023, cpu_read(&b, 0).refusal, VRC6_OK);
    SET(made, layout.prg_rom, PRG_ROM - 1024, cpu_read(&b, 0).refusal, VRC6_LENGTHS);
    SET(made, layout.chr, CHR - 1024, cpu_read(&b, 0).refusal, VRC6_LENGTHS);
    SET(made, layout.prg_ram, PRG_RAM - 1024, cpu_read(&b, 0).refusal, VRC6_LENGTHS);
    SET(made, layout.ciram, CIRAM - 1024, cpu_read(&b, 0).refusal, VRC6_LENGTHS);
}

/* Entry i serves the addresses from 1,024 i and no other. Page 77 of PRG ROM holds 77. */
static void pages(void) {
    for (uint32_t i = 0; i < 64; i++) {
        uint16_t addr = (uint16_t)(1024 * i + 5), other = (uint16_t)(addr + 1024);
        SET(made, prg_pages[i], 1, cpu_read(&b, addr).refusal, VRC6_VALUES);
        SET(made, prg_pages[i], 1, cpu_read(&b, other).refusal, VRC6_OK);
        SET(made, prg_pages[i], 1024 * 78, cpu_read(&b, addr).byte, 77);
    }
    for (uint32_t i = 0; i < 16; i++) {
        uint16_t addr = (uint16_t)(1024 * i + 5), other = (uint16_t)((addr + 1024) % 16384);
        SET(made, chr_pages[i], 1, picture_read(&b, addr).refusal, VRC6_VALUES);
        SET(made, chr_pages[i], 1, picture_read(&b, other).refusal, VRC6_OK);
        SET(made, chr_pages[i], 1, page_view(&b, addr).refusal, VRC6_VALUES);
        SET(made, chr_pages[i], 1024 * 78, picture_read(&b, addr).byte, 77);
        SET(made, chr_pages[i], 1024 * 78, page_view(&b, addr).offset, 1024 * 78);
        SET(made, chr_pages[i], WRITABLE | CIRAM_START, page_view(&b, addr).changing, true);
        SET(made, chr_pages[i], WRITABLE | CIRAM_START, page_view(&b, addr).offset, PRG_RAM);
    }
}

/* With open_bus a CPU read through the entry 0 gives the bus byte. Through other entries, and on the picture side, it
 * makes no difference. */
static void bus(void) {
    Vrc6Board open = made;
    open.open_bus = true;
    SET(made, open_bus, true, cpu_read(&b, 0x6000).byte, BUS);
    SET(made, open_bus, false, cpu_read(&b, 0x6000).byte, 0);
    for (uint32_t i = 0; i < 64; i++) {
        uint16_t addr = (uint16_t)(1024 * i + 5);
        SET(open, prg_pages[i], 0, cpu_read(&b, addr).byte, BUS);
        SET(made, prg_pages[i], 0, cpu_read(&b, addr).byte, 0);
        SET(open, prg_pages[i], 1, cpu_read(&b, addr).refusal, VRC6_VALUES);
        SET(open, prg_pages[i], 1024 * 78, cpu_read(&b, addr).byte, 77);
        SET(open, prg_pages[i], WRITABLE | FIXED, cpu_read(&b, addr).byte, 0x5A);
    }
    for (uint32_t i = 0; i < 16; i++) {
        uint16_t addr = (uint16_t)(1024 * i + 5);
        SET(open, chr_pages[i], 0, picture_read(&b, addr).byte, 0);
        SET(open, chr_pages[i], 0, page_view(&b, addr).offset, 0);
        SET(open, chr_pages[i], 1024 * 78, picture_read(&b, addr).byte, 77);
    }
}

/* A write to $8000 or $C000 rebuilds all entries from the banking values that it finds. */
static void banking(void) {
    SET(made, banking.banking_mode, 0x80, WRITTEN(0x8000, 0, prg_pages[24]), WRITABLE | FIXED);
    SET(made, banking.prg_banks[0], 3, WRITTEN(0xC000, 0, prg_pages[32]), 1024 + 3 * 16384);
    SET(made, banking.prg_banks[1], 5, WRITTEN(0x8000, 0, prg_pages[48]), 1024 + 5 * 8192);
    SET(made, banking.prg_banks[0], 16, cpu_write(&b, 0x8000, 0), VRC6_VALUES);
    SET(made, banking.prg_banks[1], 32, cpu_write(&b, 0x8000, 0), VRC6_VALUES);
    for (int i = 0; i < 8; i++)
        SET(made, banking.chr[i], 9, WRITTEN(0x8000, 0, chr_pages[i]), CHR_START + 9 * 1024);
    SET(made, banking.mirroring, VRC6_FOUR_SCREEN, cpu_write(&b, 0x8000, 0), VRC6_OK);
    SET(made, banking.mirroring, 5, cpu_write(&b, 0x8000, 0), VRC6_VALUES);
    for (int i = 0; i < 4; i++) {
        uint8_t n = 1 - made.banking.nt_banks[i];
        SET(made, banking.nt_banks[i], n, WRITTEN(0x8000, 0, chr_pages[8 + i]), WRITABLE | (CIRAM_START + 1024u * n));
        SET(made, banking.nt_banks[i], n, WRITTEN(0x8000, 0, chr_pages[12 + i]), WRITABLE | (CIRAM_START + 1024u * n));
    }
    /* Revision B has control at $F002. */
    SET(made, banking.revision_b, true, WRITTEN(0xF002, 2, irq.enabled), 1);
    SET(made, banking.revision_b, false, WRITTEN(0xF002, 2, irq.enabled), 0);
}

static void interrupt(void) {
    Vrc6Board armed = made;
    armed.irq.enabled = true;
    armed.irq.counter = 200;
    armed.irq.prescalar_counter = 100;
    SET(made, irq.reload, 7, WRITTEN(0xF001, 2, irq.counter), 7);
    SET(armed, irq.counter, 201, vrc6_forecast(&b).clocks, (341 * 54 + 102) / 3);
    SET(armed, irq.prescalar_counter, 0x101, vrc6_forecast(&b).clocks, (341 * 55 + 0x101 + 2) / 3);
    SET(armed, irq.prescalar_counter, 342, vrc6_forecast(&b).refusal, VRC6_VALUES);
    SET(armed, irq.prescalar_counter, 342, vrc6_clock_number(&b), 2 * VRC6_VALUES);
    SET(armed, irq.prescalar_counter, 3, vrc6_clock(&b).ticked, true);
    SET(armed, irq.prescalar_counter, 4, vrc6_clock(&b).ticked, false);
    SET(armed, irq.enabled, true, vrc6_forecast(&b).armed, true);
    SET(armed, irq.enabled, false, vrc6_forecast(&b).armed, false);
    SET(armed, irq.cycle_mode, true, vrc6_forecast(&b).clocks, 56);
    SET(made, irq.enabled_after_ack, true, WRITTEN(0xF002, 0, irq.enabled), 1);
    SET(made, irq.irq_pending, true, CLOCKED(irq.irq_pending), 1);
    SET(made, irq.irq_pending, true, WRITTEN(0xF002, 0, irq.irq_pending), 0);
}

/* A pulse that sounds at volume 9 in steps 0 to 3, one clock before step 4. */
#define PULSE(p)                                                                                                       \
    do {                                                                                                               \
        Vrc6Board on = made;                                                                                           \
        on.p = (Vrc6Pulse){.enabled = true, .volume = 9, .duty_cycle = 3, .frequency = 0x456, .timer = 2, .step = 3};  \
        SET(on, p.enabled, true, SUM(), bits(9));                                                                      \
        SET(on, p.enabled, false, SUM(), bits(0));                                                                     \
        SET(on, p.enabled, false, vrc6_level(&b).name, VRC6_SILENT);                                                   \
        SET(on, p.volume, 5, SUM(), bits(5));                                                                          \
        SET(on, p.volume, 16, vrc6_clock(&b).refusal, VRC6_VALUES);                                                    \
        SET(on, p.duty_cycle, 2, SUM(), bits(0));                                                                      \
        SET(on, p.duty_cycle, 8, vrc6_clock(&b).refusal, VRC6_VALUES);                                                 \
        SET(on, p.step, 4, SUM(), bits(0));                                                                            \
        SET(on, p.step, 16, vrc6_clock(&b).refusal, VRC6_VALUES);                                                      \
        SET(on, p.timer, 1, SUM(), bits(0));                                                                           \
        SET(on, p.timer, 0, vrc6_clock(&b).refusal, VRC6_VALUES);                                                      \
        SET(on, p.timer, 4097, vrc6_clock(&b).refusal, VRC6_VALUES);                                                   \
        SET(on, p.frequency, 4096, vrc6_clock(&b).refusal, VRC6_VALUES);                                               \
        SET(on, p.freq_shift, 2, vrc6_clock(&b).refusal, VRC6_VALUES);                                                 \
        on.p.timer = 1;                                                                                                \
        SET(on, p.ignore_duty, true, SUM(), bits(9));                                                                  \
        SET(on, p.frequency, 0x123, CLOCKED(p.timer), 0x124);                                                          \
        SET(on, p.freq_shift, 4, CLOCKED(p.timer), 0x46);                                                              \
    } while (0)

static void saw(void) {
    Vrc6Board on = made;
    on.audio.saw = (Vrc6Saw){.enabled = true, .accum = 40, .accum_rate = 7, .frequency = 0x456, .timer = 1, .step = 3};
    SET(on, audio.saw.enabled, true, SUM(), bits(5));
    SET(on, audio.saw.enabled, false, SUM(), bits(0));
    SET(on, audio.saw.accum, 200, CLOCKED(audio.saw.accum), 207);
    SET(on, audio.saw.accum_rate, 63, CLOCKED(audio.saw.accum), 103);
    SET(on, audio.saw.accum_rate, 64, vrc6_clock(&b).refusal, VRC6_VALUES);
    SET(on, audio.saw.frequency, 0x123, CLOCKED(audio.saw.timer), 0x124);
    SET(on, audio.saw.frequency, 4096, vrc6_clock(&b).refusal, VRC6_VALUES);
    SET(on, audio.saw.timer, 0x234, CLOCKED(audio.saw.timer), 0x233);
    SET(on, audio.saw.timer, 0, vrc6_clock(&b).refusal, VRC6_VALUES);
    SET(on, audio.saw.step, 13, CLOCKED(audio.saw.step), 0);
    SET(on, audio.saw.step, 14, vrc6_clock(&b).refusal, VRC6_VALUES);
    SET(on, audio.saw.freq_shift, 8, CLOCKED(audio.saw.timer), 5);
    SET(on, audio.saw.freq_shift, 1, vrc6_clock(&b).refusal, VRC6_VALUES);
}

static void level(void) {
    /* The last entry of PULSE_TABLE, divided by 15. */
    float scale = 0.25751257f / 15.0f;
    Vrc6Board on = made;
    on.audio.pulse2.enabled = true;
    SET(on, audio.out, 61, bits(vrc6_level(&b).level), bits(scale * 61.0f));
    SET(on, audio.out, 1, bits(vrc6_level(&b).level), bits(scale));
    SET(on, audio.out, 62, vrc6_level(&b).refusal, VRC6_VALUES);
    SET(on, audio.out, 0.5f, vrc6_level(&b).refusal, VRC6_VALUES);
    SET(on, audio.out, -0.0f, vrc6_level(&b).refusal, VRC6_VALUES);
    SET(on, audio.halt, false, vrc6_level(&b).name, VRC6_PLAYING);
    SET(on, audio.halt, true, vrc6_level(&b).name, VRC6_HELD);
    SET(made, audio.halt, true, vrc6_level(&b).name, VRC6_SILENT);
}

static void pulses(void) {
    PULSE(audio.pulse1);
    PULSE(audio.pulse2);
}

int main(void) {
    insert_cart();
    expect("create", make(&made), VRC6_OK);
    layout();
    pages();
    bus();
    banking();
    interrupt();
    pulses();
    saw();
    level();
    return verdict("fields");
}
