//! The dump of a board: five lines, in FORMAT.md's order.
use crate::{
    mapper::m024_m026_vrc6::{Audio, Pulse, Revision, Vrc6},
    memory::Page,
    rig::{Rig, raw},
};
use std::fmt::Write;

fn pages(o: &mut String, name: &str, pages: &[Page]) {
    o.push_str(name);
    for p in pages {
        let _ = write!(o, " {:x}", raw(*p));
    }
    o.push('\n');
}

fn banking(o: &mut String, b: &Vrc6) {
    let rev = if b.revision == Revision::B { 'B' } else { 'A' };
    let _ = write!(o, "DB {rev} {:02x} {:x} {:x}", b.regs.banking_mode, b.prg_banks[0], b.prg_banks[1]);
    for c in b.regs.chr {
        let _ = write!(o, " {c:02x}");
    }
    let _ = write!(o, " {}", b.mirroring as u8);
    for c in b.nt_banks {
        let _ = write!(o, " {c:02x}");
    }
    o.push('\n');
}

fn interrupt(o: &mut String, b: &Vrc6) {
    let i = &b.irq;
    let _ = writeln!(
        o,
        "DI {} {} {} {} {} {} {}",
        i.reload,
        i.counter,
        i.prescalar_counter,
        u8::from(i.irq_pending),
        u8::from(i.enabled),
        u8::from(i.enabled_after_ack),
        u8::from(i.cycle_mode)
    );
}

fn pulse(o: &mut String, p: &Pulse) {
    let _ = write!(
        o,
        " / {} {} {} {} {} {} {} {}",
        u8::from(p.enabled),
        p.volume,
        p.duty_cycle,
        u8::from(p.ignore_duty),
        p.frequency,
        p.timer,
        p.step,
        p.freq_shift
    );
}

fn sound(o: &mut String, a: &Audio) {
    o.push_str("DA");
    pulse(o, &a.pulse1);
    pulse(o, &a.pulse2);
    let s = &a.saw;
    let _ = writeln!(
        o,
        " / {} {} {} {} {} {} {} / {} {:08x}",
        u8::from(s.enabled),
        s.accum,
        s.accum_rate,
        s.frequency,
        s.timer,
        s.step,
        s.freq_shift,
        u8::from(a.halt),
        a.out.to_bits()
    );
}

pub fn dump(o: &mut String, r: &Rig) {
    pages(o, "DP", r.m.prg_pages());
    pages(o, "DC", r.m.chr_pages());
    banking(o, &r.b);
    interrupt(o, &r.b);
    sound(o, &r.b.audio);
}
