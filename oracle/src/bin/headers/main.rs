//! Compares what the proved `vrc6_read_header` and the original's cart.rs make of cartridge files.
//!   headers SEED COUNT          files made from a seed
//!   headers --rows FILE         the rows of a file, as crates/cartridges plays them (oracle/FORMAT.md)
//! Exits 1 if there is a difference that no known kind explains.
mod expected;
mod files;
mod lent;
mod rows;

use expected::{Kind, expect};
use files::Files;
use lent::{Cartridge, Lent};
use std::process::exit;

/// So many differences are printed.
const SHOWN: u64 = 20;

#[derive(Default)]
struct Counts {
    files: u64,
    different: u64,
    /// Accepted, 5, 6 and 7.
    answers: [u64; 4],
    kinds: [u64; Kind::ALL.len()],
}

impl Counts {
    fn add(&mut self, head: &[u8; 16], len: usize, ours: Cartridge) {
        let expected = expect(head, len);
        self.files += 1;
        self.answers[match ours.refusal {
            0 => 0,
            n => (n as usize).clamp(5, 7) - 4,
        }] += 1;
        self.kinds[expected.kind as usize] += 1;
        if ours != expected.answer {
            self.different += 1;
            if self.different <= SHOWN {
                let hex: String = head.iter().map(|b| format!("{b:02X}")).collect();
                println!("DIFFERENT {hex} {len}: expected {:?}, got {ours:?}", expected.answer);
            }
        }
    }

    fn print(&self) {
        let [accepted, five, six, seven] = self.answers;
        println!("  answers: {accepted} accepted, {five} refused by 5, {six} by 6, {seven} by 7");
        for kind in Kind::ALL {
            println!("  {:>9} {}", self.kinds[kind as usize], kind.words());
        }
    }
}

fn number(word: &str) -> u64 {
    word.parse().unwrap_or_else(|_| {
        eprintln!("headers: '{word}' is no number");
        exit(2)
    })
}

fn compare_seed(seed: u64, count: u64) -> bool {
    let mut lent = Lent::new();
    let mut files = Files::new(seed);
    let mut counts = Counts::default();
    for _ in 0..count {
        let (head, len) = files.next();
        counts.add(&head, len, lent.read_header(&head, len));
    }
    println!("seed {seed}: {} files, {} different", counts.files, counts.different);
    counts.print();
    counts.different == 0
}

fn main() {
    let args: Vec<String> = std::env::args().skip(1).collect();
    let same = match args.iter().map(String::as_str).collect::<Vec<_>>()[..] {
        ["--rows", file] => rows::compare(file),
        [seed, count] => compare_seed(number(seed), number(count)),
        _ => {
            eprintln!("usage: headers SEED COUNT | headers --rows FILE");
            exit(2)
        }
    };
    exit(if same { 0 } else { 1 })
}
