//! A player's loop in small, as host/c/main.c: it prints the same lines.
use vrc6::{Cartridge, Level, Refusal, Settings, Vrc6};

/// What the bus holds whenever this program reads.
const BUS: u8 = 165;

/// The file that a host would read from disk: mapper 24, vertical, each page of PRG and of CHR filled with its number.
fn made_up_file() -> Vec<u8> {
    let header = [0x4E, 0x45, 0x53, 0x1A, 8, 16, 0x81, 0x10, 0, 0, 0, 0, 0, 0, 0, 0];
    let numbers = (0..128).chain(0..128);
    header.into_iter().chain(numbers.flat_map(|n| std::iter::repeat_n(n, 1024))).collect()
}

/// The board of the file, with open bus.
fn start(file: &[u8]) -> Result<Vrc6, Refusal> {
    let Cartridge { layout, mirroring, revision, prg_start, chr_start } = Cartridge::parse(file)?;
    let (mirroring, revision) = (mirroring as u8, revision as u8);
    print!("file {} bytes: PRG at {prg_start}, CHR at {chr_start}, ", file.len());
    println!("mirroring {mirroring}, revision {revision}");
    println!("fixed {} bytes, changing {} bytes", layout.fixed_length(), layout.changing_length());
    Vrc6::from_ines_with(file, |stated| Settings { open_bus: true, ..stated })
}

fn banks(v: &mut Vrc6) -> Result<(), Refusal> {
    println!("created: $E000 reads {}", v.cpu_read(0xE000, BUS)?);
    println!("PRG RAM off, {BUS} on the bus: $6123 reads {}", v.cpu_read(0x6123, BUS)?);
    v.cpu_write(0x8000, 3)?;
    println!("first PRG number 3: $8000 reads {}", v.cpu_read(0x8000, BUS)?);
    v.cpu_write(0xB003, 0xA0)?;
    v.cpu_write(0x6123, 77)?;
    println!("PRG RAM on, 77 written: $6123 reads {}", v.cpu_read(0x6123, BUS)?);
    Ok(())
}

/// Clocks until the cartridge asks for an interrupt.
fn interrupt(v: &mut Vrc6) -> Result<(), Refusal> {
    v.cpu_write(0xF000, 0xFE)?;
    v.cpu_write(0xF001, 2)?;
    let told = v.forecast()?.expect("an armed counter");
    let (mut clocks, mut ticks) = (0, 0);
    while !v.irq_pending() && clocks < 100_000 {
        ticks += u32::from(v.clock()?);
        clocks += 1;
    }
    assert_eq!(clocks, told);
    println!("reload $FE, control 2: forecast {told}, interrupt after {clocks} clocks, {ticks} ticks");
    v.cpu_write(0xF002, 0)?;
    println!("acknowledged: pending {}, armed {}", v.irq_pending() as u8, v.forecast()?.is_some() as u8);
    Ok(())
}

fn sound(v: &mut Vrc6) -> Result<(), Refusal> {
    v.cpu_write(0x9000, 0x8F)?;
    v.cpu_write(0x9002, 0x80)?;
    v.clock()?;
    let (name, level) = match v.level()? {
        Level::Silent(level) => ("silent", level),
        Level::Held(level) => ("held", level),
        Level::Playing(level) => ("playing", level),
    };
    println!("one pulse at volume 15: {name}, level {level:.7}");
    Ok(())
}

fn pages(v: &mut Vrc6) -> Result<(), Refusal> {
    v.cpu_write(0xD001, 9)?;
    println!("CHR 1 = 9: the page at picture $0400 begins with {}", v.page_view(0x0400)?[0]);
    v.picture_write(0x2400, 33)?;
    println!("33 written to nametable $2400: its page begins with {}", v.page_view(0x2400)?[0]);
    Ok(())
}

fn main() -> Result<(), Refusal> {
    let mut v = start(&made_up_file())?;
    banks(&mut v)?;
    interrupt(&mut v)?;
    sound(&mut v)?;
    pages(&mut v)
}
