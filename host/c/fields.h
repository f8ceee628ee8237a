/* Every field of a board and of a cartridge, by name and place. Nothing is said of a byte that is in none of them: it
 * only aligns. */
#ifndef FIELDS_H
#define FIELDS_H

#include "../../include/vrc6.h"

typedef struct {
    const char *name;
    size_t at, size;
} Field;

#define FIELD_OF(type, path) {#path, offsetof(type, path), sizeof((type *)0)->path}
#define FIELD(path) FIELD_OF(Vrc6Board, path)
#define CARTRIDGE_FIELD(path) FIELD_OF(Vrc6Cartridge, path)
#define PULSE(p)                                                                                                       \
    FIELD(p.enabled), FIELD(p.volume), FIELD(p.duty_cycle), FIELD(p.ignore_duty), FIELD(p.frequency), FIELD(p.timer),  \
        FIELD(p.step), FIELD(p.freq_shift)

static const Field fields[] = {
    FIELD(layout.prg_rom),
    FIELD(layout.chr),
    FIELD(layout.chr_writable),
    FIELD(layout.prg_ram),
    FIELD(layout.ciram),
    FIELD(prg_pages),
    FIELD(chr_pages),
    FIELD(banking.banking_mode),
    FIELD(banking.prg_banks),
    FIELD(banking.chr),
    FIELD(banking.mirroring),
    FIELD(banking.nt_banks),
    FIELD(banking.revision_b),
    FIELD(irq.reload),
    FIELD(irq.prescalar_counter),
    FIELD(irq.counter),
    FIELD(irq.irq_pending),
    FIELD(irq.enabled),
    FIELD(irq.enabled_after_ack),
    FIELD(irq.cycle_mode),
    PULSE(audio.pulse1),
    PULSE(audio.pulse2),
    FIELD(audio.saw.enabled),
    FIELD(audio.saw.accum),
    FIELD(audio.saw.accum_rate),
    FIELD(audio.saw.frequency),
    FIELD(audio.saw.timer),
    FIELD(audio.saw.step),
    FIELD(audio.saw.freq_shift),
    FIELD(audio.halt),
    FIELD(audio.out),
    FIELD(open_bus),
};

static const Field cartridge_fields[] = {
    CARTRIDGE_FIELD(layout.prg_rom),
    CARTRIDGE_FIELD(layout.chr),
    CARTRIDGE_FIELD(layout.chr_writable),
    CARTRIDGE_FIELD(layout.prg_ram),
    CARTRIDGE_FIELD(layout.ciram),
    CARTRIDGE_FIELD(mirroring),
    CARTRIDGE_FIELD(revision),
    CARTRIDGE_FIELD(prg_start),
    CARTRIDGE_FIELD(chr_start),
    CARTRIDGE_FIELD(refusal),
};

enum {
    FIELDS = sizeof fields / sizeof fields[0],
    CARTRIDGE_FIELDS = sizeof cartridge_fields / sizeof cartridge_fields[0]
};

#endif
