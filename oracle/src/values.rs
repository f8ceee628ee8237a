//! The values of a board by their names in scripts: what each shows, which numbers it takes, and how it is set. The
//! ranges are document 01's.
use crate::{
    mapper::{
        m024_m026_vrc6::{Pulse, Revision, Saw, Vrc6},
        vrc_irq::VrcIrq,
    },
    rig::{Rig, mirroring},
};

/// A value of the board, of its interrupt or of a channel.
pub struct Value<T> {
    name: &'static str,
    takes: fn(u32) -> bool,
    get: fn(&T) -> u32,
    set: fn(&mut T, u32),
}

macro_rules! number {
    ($name:literal, $takes:expr, $type:ty, $($field:tt)+) => {
        Value { name: $name, takes: $takes, get: |t| t.$($field)+ as u32, set: |t, v| t.$($field)+ = v as $type }
    };
}

/// Any number but 0 sets a flag.
macro_rules! flag {
    ($name:literal, $($field:tt)+) => {
        Value { name: $name, takes: |_| true, get: |t| u32::from(t.$($field)+), set: |t, v| t.$($field)+ = v != 0 }
    };
}

const BYTE: fn(u32) -> bool = |v| v <= 255;
const FREQUENCY: fn(u32) -> bool = |v| v <= 4095;
const TIMER: fn(u32) -> bool = |v| (1..=4096).contains(&v);
const SHIFT: fn(u32) -> bool = |v| [0, 4, 8].contains(&v);

static BOARD: [Value<Vrc6>; 7] = [
    number!("mode", BYTE, u8, regs.banking_mode),
    number!("prg-16k", |v| v <= 15, usize, prg_banks[0]),
    number!("prg-8k", |v| v <= 31, usize, prg_banks[1]),
    Value {
        name: "mirroring",
        takes: |v| v <= 4,
        get: |b| b.mirroring as u32,
        set: |b, v| b.mirroring = mirroring(v),
    },
    Value {
        name: "revision",
        takes: |_| true,
        get: |b| b.revision as u32,
        set: |b, v| b.revision = if v == 0 { Revision::A } else { Revision::B },
    },
    flag!("halt", audio.halt),
    Value {
        name: "sum",
        takes: |v| (0..62).any(|n| (n as f32).to_bits() == v),
        get: |b| b.audio.out.to_bits(),
        set: |b, v| b.audio.out = f32::from_bits(v),
    },
];

static IRQ: [Value<VrcIrq>; 7] = [
    number!("reload", BYTE, u8, reload),
    number!("counter", BYTE, u8, counter),
    number!("prescaler", |v| v <= 341, i16, prescalar_counter),
    flag!("pending", irq_pending),
    flag!("enabled", enabled),
    flag!("after-acknowledge", enabled_after_ack),
    flag!("cycle", cycle_mode),
];

static PULSE: [Value<Pulse>; 8] = [
    flag!("enabled", enabled),
    number!("volume", |v| v <= 15, u8, volume),
    number!("duty", |v| v <= 7, u8, duty_cycle),
    flag!("ignore-duty", ignore_duty),
    number!("frequency", FREQUENCY, u16, frequency),
    number!("timer", TIMER, u16, timer),
    number!("step", |v| v <= 15, u8, step),
    number!("shift", SHIFT, u8, freq_shift),
];

static SAW: [Value<Saw>; 7] = [
    flag!("enabled", enabled),
    number!("accumulator", BYTE, u8, accum),
    number!("rate", |v| v <= 63, u8, accum_rate),
    number!("frequency", FREQUENCY, u16, frequency),
    number!("timer", TIMER, u16, timer),
    number!("step", |v| v <= 13, u8, step),
    number!("shift", SHIFT, u8, freq_shift),
];

fn find<T>(values: &'static [Value<T>], name: &str) -> Option<&'static Value<T>> {
    values.iter().find(|v| v.name == name)
}

/// The place of a value that `expect` shows and `poke` sets.
pub enum Place {
    Entry(u16),
    PictureEntry(u16),
    /// A length of the layout, which the original doesn't keep.
    Layout,
    Board(&'static Value<Vrc6>),
    /// The setting, which the driver keeps.
    OpenBus,
    Irq(&'static Value<VrcIrq>),
    Pulse1(&'static Value<Pulse>),
    Pulse2(&'static Value<Pulse>),
    Saw(&'static Value<Saw>),
    Chr(usize),
    Nametable(usize),
    Fixed(usize),
    Changing(usize),
}

impl Place {
    /// The values whose name is one word.
    pub fn single(name: &str) -> Option<Self> {
        match name {
            "open-bus" => Some(Place::OpenBus),
            _ => find(&BOARD, name).map(Place::Board).or_else(|| find(&IRQ, name).map(Place::Irq)),
        }
    }
    /// A field of a channel.
    pub fn channel(name: &str, field: &str) -> Option<Self> {
        match name {
            "pulse1" => find(&PULSE, field).map(Place::Pulse1),
            "pulse2" => find(&PULSE, field).map(Place::Pulse2),
            _ => find(&SAW, field).map(Place::Saw),
        }
    }
    /// What the original shows there; none if it has no such value.
    pub fn get(&self, r: &Rig) -> Option<u32> {
        let (fixed, changing) = r.lengths();
        let byte = |o: usize, from: usize, len: usize| if o < len { r.byte(from + o).into() } else { 1000 };
        Some(match self {
            Place::Entry(a) => r.cpu_entry(*a),
            Place::PictureEntry(a) => r.picture_entry(*a),
            Place::Layout => return None,
            Place::Board(v) => (v.get)(&r.b),
            Place::OpenBus => r.open_bus.into(),
            Place::Irq(v) => (v.get)(&r.b.irq),
            Place::Pulse1(v) => (v.get)(&r.b.audio.pulse1),
            Place::Pulse2(v) => (v.get)(&r.b.audio.pulse2),
            Place::Saw(v) => (v.get)(&r.b.audio.saw),
            Place::Chr(n) => r.b.regs.chr[*n] as u32,
            Place::Nametable(n) => r.b.nt_banks[*n] as u32,
            Place::Fixed(o) => byte(*o, 0, fixed),
            Place::Changing(o) => byte(*o, fixed, changing),
        })
    }
    /// Sets a value. False if the original can't hold it, or can't go on with it.
    pub fn set(&self, r: &mut Rig, v: u32) -> bool {
        match self {
            Place::Entry(a) => r.set_cpu_entry(*a, v),
            Place::PictureEntry(a) => r.set_picture_entry(*a, v),
            Place::Layout => false,
            Place::Board(value) => put(value, &mut r.b, v),
            Place::OpenBus => {
                r.open_bus = v != 0;
                true
            }
            Place::Irq(value) => put(value, &mut r.b.irq, v),
            Place::Pulse1(value) => put(value, &mut r.b.audio.pulse1, v),
            Place::Pulse2(value) => put(value, &mut r.b.audio.pulse2, v),
            Place::Saw(value) => put(value, &mut r.b.audio.saw, v),
            Place::Chr(n) => put_byte(&mut r.b.regs.chr[*n], v),
            Place::Nametable(n) => put_byte(&mut r.b.nt_banks[*n], v),
            Place::Fixed(o) => *o >= r.lengths().0 || (v <= 255 && r.set_byte(*o, v as u8)),
            Place::Changing(o) => {
                let (fixed, changing) = r.lengths();
                *o >= changing || (v <= 255 && r.set_byte(fixed + *o, v as u8))
            }
        }
    }
}

fn put<T>(value: &Value<T>, t: &mut T, v: u32) -> bool {
    let takes = (value.takes)(v);
    if takes {
        (value.set)(t, v);
    }
    takes
}

fn put_byte(place: &mut usize, v: u32) -> bool {
    let takes = v <= 255;
    if takes {
        *place = v as usize;
    }
    takes
}
