//! Rows of headers: `HEX LENGTH = ANSWER`. Each answer is compared with both the proved call's and the one by the original.
use crate::{
    expected::expect,
    lent::{Cartridge, Layout, Lent},
};

/// The place of a word among names.
fn place(names: &[&str], word: &str) -> u8 {
    names.iter().position(|name| *name == word).unwrap_or_else(|| panic!("'{word}' is none of {names:?}")) as u8
}

fn decimal(word: &str) -> u32 {
    word.parse().unwrap_or_else(|_| panic!("'{word}' is no number"))
}

fn answer_of(words: &[&str]) -> Cartridge {
    let [prg, chr, kind, prg_ram, ciram, mirroring, revision, prg_start, chr_start] = words[..] else {
        return Cartridge { refusal: decimal(words[0]) as u8, ..Cartridge::default() };
    };
    Cartridge {
        layout: Layout {
            prg_rom: decimal(prg),
            chr: decimal(chr),
            chr_writable: place(&["rom", "ram"], kind) == 1,
            prg_ram: decimal(prg_ram),
            ciram: decimal(ciram),
        },
        mirroring: place(&["V", "H", "A", "B", "4"], mirroring),
        revision: place(&["A", "B"], revision),
        prg_start: decimal(prg_start),
        chr_start: decimal(chr_start),
        refusal: 0,
    }
}

fn head_of(hex: &str) -> [u8; 16] {
    let mut head = [0; 16];
    if hex != "-" {
        for (i, byte) in head.iter_mut().take(hex.len() / 2).enumerate() {
            *byte = u8::from_str_radix(&hex[2 * i..2 * i + 2], 16).unwrap_or_else(|_| panic!("'{hex}' are no bytes"));
        }
    }
    head
}

pub fn compare(file: &str) -> bool {
    let text = std::fs::read_to_string(file).unwrap_or_else(|e| panic!("{file}: {e}"));
    let mut lent = Lent::new();
    let (mut rows, mut wrong) = (0, 0);
    for (n, line) in text.lines().enumerate().filter(|(_, line)| !line.is_empty() && !line.starts_with('#')) {
        let words: Vec<&str> = line.split_whitespace().collect();
        let [hex, len, "=", answer @ ..] = &words[..] else { panic!("line {}: no row", n + 1) };
        let (head, len) = (head_of(hex), decimal(len) as usize);
        let (stated, by_original, ours) = (answer_of(answer), expect(&head, len).answer, lent.read_header(&head, len));
        rows += 1;
        if stated != by_original || stated != ours {
            wrong += 1;
            println!("WRONG line {}: {stated:?}, by the original {by_original:?}, got {ours:?}", n + 1);
        }
    }
    println!("{file}: {rows} rows, {wrong} wrong");
    wrong == 0
}
