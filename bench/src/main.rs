//! Timings and sizes of the proved core beside the reference, on the same inputs: prints the tables of `docs/BENCHMARKS.md`.
//!
//! `bench` takes about two minutes. `bench --quick` only sees that the two agree and that everything runs. `bench WORD` has the rows with that
//! word in their names.

mod growth;
mod inputs;
mod measure;
mod names;
mod proved;
mod relaying;
mod rows;
mod sessions;
mod sides;
mod sizes;

use measure::{Effort, Row};
use sides::Areas;
use sizes::Size;
use std::env;
use std::env::consts::{ARCH, OS};
use std::thread;

fn print_machine() {
    let cores = thread::available_parallelism().map_or(1, usize::from);
    println!("## Measured\n\n`cargo run --release --offline` in `bench/`, on {cores} cores, {ARCH} {OS}.");
}

fn print_head(title: &str, unit: &str) {
    println!("\n### {title}\n\n| name | proved {unit} | reference {unit} | ratio |\n|---|---:|---:|---:|");
}

fn print_row(row: Row) {
    let Row { name, proved, reference } = row;
    println!("| {name} | {proved:.1} | {reference:.1} | {:.2} |", proved / reference);
}

fn print_sizes() {
    print_head("Sizes", "bytes");
    for Size { name, proved, reference } in sizes::sizes().expect("the programs stand beside this one") {
        println!("| {name} | {proved} | {reference} | {:.2} |", proved as f64 / reference as f64);
    }
}

/// Moves the code behind it, that of both sides, by 48 bytes and those of the feature. A short loop may take twice the
/// time where it lies across two lines of the cache, and where it lies is the linker's choice, which any other change may
/// change. With 48 bytes neither side's loops over a text lay so when this was written.
#[inline(never)]
fn further_on() {
    unsafe { std::arch::asm!(".skip 48, 0x90") }
    #[cfg(feature = "on16")]
    unsafe {
        std::arch::asm!(".skip 16, 0x90")
    }
    #[cfg(feature = "on32")]
    unsafe {
        std::arch::asm!(".skip 32, 0x90")
    }
    #[cfg(feature = "on48")]
    unsafe {
        std::arch::asm!(".skip 48, 0x90")
    }
}

fn main() {
    further_on();
    if let [flag, side, levels] = &env::args().skip(1).collect::<Vec<_>>()[..] {
        if flag == "--stack" {
            return sizes::try_stack(side, levels);
        }
    }
    let (flags, words): (Vec<_>, Vec<_>) = env::args().skip(1).partition(|argument| argument.starts_with("--"));
    let effort = if flags.iter().any(|flag| flag == "--quick") { Effort::QUICK } else { Effort::FULL };
    let wanted = |name: &str| words.iter().all(|word| name.contains(word));
    let mut areas = Areas::new();
    print_machine();
    print_head("Calls", "ns");
    for session in rows::sessions() {
        if wanted(&session.name) {
            print_row(session.row(effort, &mut areas));
        }
    }
    for (name, measure) in rows::FUNCTIONS {
        if wanted(name) {
            print_row(measure(name, effort, &mut areas));
        }
    }
    for (name, measure) in names::ROWS {
        if wanted(name) {
            print_row(measure(name, effort));
        }
    }
    for (name, measure) in relaying::ROWS {
        if wanted(name) {
            print_row(measure(name, effort, &mut areas));
        }
    }
    print_head("How cost grows", "ns");
    for list in [growth::payloads(), growth::keywords(), growth::texts(), growth::entries(), growth::remembered()] {
        for session in list {
            if wanted(&session.name) {
                print_row(session.row(effort, &mut areas));
            }
        }
    }
    if words.is_empty() {
        print_sizes();
    }
}
