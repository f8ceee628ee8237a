//! bench                    the proved board's lent calls beside the original: instructions and ns per call, one table; a frame of
//!                          calls; and, built with the feature before, each row beside the same call of another archive
//! bench count ROW FORM N   one loop of N calls and nothing printed, which the first runs under callgrind
mod checked;
mod forms;
mod lent;
mod rows;

use lent::{Lent, Now};
use rows::{BEFORE, CHECKED, EMPTY, EMPTY_LENT, FORMS, FRAME, Hosts, LENT, NO_CALL, ROWS, RUST, Row, S};
use std::{process::Command, time::Instant};

const CALLS: u32 = 3_000_000;
const COUNTED: u32 = 10_000;
const FRAMES: u32 = 100;
const FRAMES_COUNTED: u32 = 10;
const RUNS: usize = 9;
const AGREED: u32 = 200_000;

/// Least and median of the runs in ns per call, the loop's included, for each form. The forms take turns run by run, so
/// that a drift of the machine meets all of them.
fn times(row: &Row, calls: u32) -> [(f64, f64); FORMS] {
    let mut h = Hosts::of(row);
    let mut t = [const { Vec::new() }; FORMS];
    for _ in 0..RUNS {
        for (form, run) in row.runs.iter().enumerate() {
            let began = Instant::now();
            run(&mut h, if measured(form) { calls } else { 0 });
            t[form].push(began.elapsed().as_nanos() as f64 / f64::from(calls));
        }
    }
    t.map(|mut t| {
        t.sort_by(f64::total_cmp);
        (t[0], t[RUNS / 2])
    })
}

/// All instructions of a process that makes n calls.
fn collected(row: usize, form: usize, n: u32) -> f64 {
    let exe = std::env::current_exe().expect("this program");
    let o = Command::new("valgrind")
        .args(["--tool=callgrind", "--callgrind-out-file=/dev/null"])
        .arg(exe)
        .args(["count", &row.to_string(), &form.to_string(), &n.to_string()])
        .output()
        .expect("valgrind");
    let text = String::from_utf8_lossy(&o.stderr);
    assert!(o.status.success(), "callgrind: {text}");
    let count = text.lines().find_map(|l| l.split_once("Collected :")).expect("callgrind's count").1;
    count.trim().parse().expect("a number")
}

/// Instructions per call, the loop's included: what n further calls take, divided by n.
fn instructions(row: usize, form: usize, n: u32) -> f64 {
    (collected(row, form, 2 * n) - collected(row, form, n)) / f64::from(n)
}

/// The row that `count` names: those of the table, then the frame.
fn row(i: usize) -> &'static Row {
    if i == ROWS.len() { &FRAME } else { &ROWS[i] }
}

/// Without another archive the form before is this tree's again, and is not measured.
fn measured(form: usize) -> bool {
    form != BEFORE || cfg!(feature = "before")
}

/// A loop by itself, and with an empty call in it: instructions, and least ns.
struct Shape {
    name: &'static str,
    instructions: [f64; 3],
    ns: [f64; 3],
}

/// The original, the original with the checks, the proved board, and the third over the first and the second.
fn five(of: [f64; 3], d: usize) -> String {
    let [rust, checked, lent] = of;
    format!("{rust:>8.d$}{checked:>9.d$}{lent:>8.d$}{:>7.2}{:>9.2}", lent / rust, lent / checked)
}

/// A row's figures, for the original, the original with the checks, the proved board, and the archive before.
struct Figures {
    name: &'static str,
    instructions: [f64; 4],
    least: [f64; 4],
    median: [f64; 4],
}

const PRINTED: [usize; 4] = [RUST, CHECKED, LENT, BEFORE];

impl Figures {
    /// Without what the loop by itself takes in instructions.
    fn of(i: usize, t: [(f64, f64); FORMS], alone: f64, counted: u32) -> Self {
        let counts = PRINTED.map(|f| if measured(f) { instructions(i, f, counted) - alone } else { 0.0 });
        Figures { name: row(i).name, instructions: counts, least: PRINTED.map(|f| t[f].0), median: PRINTED.map(|f| t[f].1) }
    }
    fn three(of: [f64; 4]) -> [f64; 3] {
        [of[0], of[1], of[2]]
    }
}

fn table() {
    rows::agree(AGREED);
    println!("all forms agree on {AGREED} calls; a board takes {} bytes\n", Lent::<Now>::board_bytes(S));
    println!("{:34}{:>41}  {:>41}", "", "instructions per call, without the loop", "ns per call with the loop, least of 9");
    let head = format!("{:>8}{:>9}{:>8}{:>7}{:>9}", "Rust", "checked", "Rattle", "/Rust", "/checked");
    println!("{:34}{head}  {head}", "");
    let mut shapes: Vec<Shape> = vec![];
    let mut all = vec![];
    for (i, row) in ROWS.iter().enumerate() {
        let t = times(row, CALLS);
        if !shapes.iter().any(|s| s.name == row.shape) {
            let of = [NO_CALL, EMPTY, EMPTY_LENT];
            shapes.push(Shape {
                name: row.shape,
                instructions: of.map(|f| instructions(i, f, COUNTED)),
                ns: of.map(|f| t[f].0),
            });
        }
        let alone = shapes.iter().find(|s| s.name == row.shape).expect("measured above").instructions[0];
        let f = Figures::of(i, t, alone, COUNTED);
        println!("{:34}{}  {}", f.name, five(Figures::three(f.instructions), 1), five(Figures::three(f.least), 2));
        all.push(f);
    }
    println!("\n{:34}{}  {:>41}", "", " ".repeat(41), "ns per call with the loop, median of 9");
    for f in &all {
        println!("{:34}{:41}  {}", f.name, "", five(Figures::three(f.median), 2));
    }
    empty_calls(&shapes);
    let f = frame();
    if cfg!(feature = "before") {
        before(&all, &f);
    }
}

/// What a frame costs that writes $D000 on each of its 240 lines, with 113 clocks behind each write.
fn frame() -> Figures {
    let i = ROWS.len();
    let t = times(&FRAME, FRAMES);
    let f = Figures::of(i, t, instructions(i, NO_CALL, FRAMES_COUNTED), FRAMES_COUNTED);
    println!("\n{:34}{:>12}{:>12}{:>12}{:>8}{:>10}", f.name, "Rust", "checked", "Rattle", "/Rust", "/checked");
    for (what, of, d) in [("instructions", f.instructions, 0), ("us, least of 9", f.least.map(|n| n / 1000.0), 1)] {
        let [rust, checked, lent, _] = of;
        println!("  {what:32}{rust:>12.d$}{checked:>12.d$}{lent:>12.d$}{:>8.2}{:>10.2}", lent / rust, lent / checked);
    }
    f
}

/// Each row beside the same call of the archive before.
fn before(all: &[Figures], frame: &Figures) {
    println!("\n{:34}{:>32}{:>34}", "the archive before, and this one", "instructions", "ns, least of 9");
    println!("{:34}{:>12}{:>12}{:>8}{:>14}{:>12}{:>8}", "", "before", "now", "/before", "before", "now", "/before");
    for f in all.iter().chain([frame]) {
        let ([_, _, lent, was], [_, _, ns, ns_was]) = (f.instructions, f.least);
        println!("{:34}{was:>12.1}{lent:>12.1}{:>8.2}{ns_was:>14.2}{ns:>12.2}{:>8.2}", f.name, lent / was, ns / ns_was);
    }
}

fn empty_calls(shapes: &[Shape]) {
    println!("\n{:34}{:>20}{:>26}{:>28}", "", "the loop, no call", "empty call, Rust's args", "empty call, Rattle's args");
    println!("{:34}{:>12}{:>8}{:>18}{:>8}{:>20}{:>8}", "", "instr", "ns", "instr", "ns", "instr", "ns");
    for s in shapes {
        let ([alone, empty, lent], [n0, n1, n2]) = (s.instructions, s.ns);
        let (empty, lent) = (empty - alone, lent - alone);
        println!("{:34}{alone:>12.1}{n0:>8.2}{empty:>18.1}{n1:>8.2}{lent:>20.1}{n2:>8.2}", s.name);
    }
}

fn main() {
    let w: Vec<String> = std::env::args().skip(1).collect();
    let n = |i: usize| w[i].parse::<usize>().expect("a number");
    if w.first().is_some_and(|w| w == "count") {
        let row = row(n(1));
        row.runs[n(2)](&mut Hosts::of(row), n(3) as u32);
    } else {
        table();
    }
}
