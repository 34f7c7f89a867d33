//! Times the library beside the original crate `str_indices`, and beside what else counts characters.

mod options;
mod positions;
mod ratios;
mod table;
mod texts;
mod throughput;
mod timing;

#[cfg(bytecount_at_hand)]
extern crate bytecount;

use options::{Options, Scale};
#[cfg(bytecount_at_hand)]
use original::Function;
use ratios::Ratios;
use std::process::ExitCode;

fn main() -> ExitCode {
    let options = match Options::from_words(std::env::args().skip(1)) {
        Ok(options) => options,
        Err(fault) => {
            eprintln!("bench: {fault}");
            return ExitCode::from(2);
        }
    };
    let scale = Scale::of(options.small);
    println!("{}\n", heading(&options));
    let told = tell_ratios(&scale, options.rounds).and_then(|()| tell_counting_ratios(&scale, options.rounds));
    if let Err(difference) = told {
        eprintln!("bench: {difference}");
        return ExitCode::FAILURE;
    }
    println!("{}", positions::table(library(), &scale, options.rounds));
    print!("{}", throughput::table(&scale, options.rounds));
    ExitCode::SUCCESS
}

/// Measures and prints the table of ratios, or says that there is nothing to compare with. An error is a difference
/// between the answers.
fn tell_ratios(scale: &Scale, rounds: usize) -> Result<(), String> {
    if let Some(original) = original::functions() {
        let ours = original::functions!(str_indices);
        let ratios = Ratios::measure(&ours, ("the original", &original), scale, rounds)?;
        println!("{}", ratios.table(library()));
    } else {
        println!("No ratios: the original is not at hand, as STR_INDICES_ORIGINAL names no folder.\n");
    }
    Ok(())
}

/// Does the same for what `bytecount` counts too.
#[cfg(bytecount_at_hand)]
fn tell_counting_ratios(scale: &Scale, rounds: usize) -> Result<(), String> {
    let ours = [
        Function::Counting("chars::count", str_indices::chars::count),
        Function::Counting("lines_lf::count_breaks", str_indices::lines_lf::count_breaks),
    ];
    let theirs = [
        Function::Counting("chars::count", |text| bytecount::num_chars(text.as_bytes())),
        Function::Counting("lines_lf::count_breaks", |text| {
            bytecount::count(text.as_bytes(), b'\n')
        }),
    ];
    let ratios = Ratios::measure(&ours, ("bytecount", &theirs), scale, rounds)?;
    println!("{}", ratios.table(library()));
    Ok(())
}

/// Says that there is nothing to compare with.
#[cfg(not(bytecount_at_hand))]
fn tell_counting_ratios(_scale: &Scale, _rounds: usize) -> Result<(), String> {
    println!("No ratios to bytecount: it is not installed.\n");
    Ok(())
}

extern "C" {
    /// Whether the wide half of the library answers for a text of so many bytes.
    fn str_indices_is_wide(len: usize) -> bool;
}

/// How the library answers here.
fn library() -> &'static str {
    // SAFETY: it takes any number, and reads one of its own.
    let is_wide = |len| unsafe { str_indices_is_wide(len) };
    match [0, 256].map(is_wide) {
        [true, _] => "by the wide half",
        [_, true] => "by the wide half from 256 bytes on",
        _ => "by the narrow half",
    }
}

/// The line that says on what was measured, and how often.
fn heading(options: &Options) -> String {
    let rounds = options.rounds;
    let small = if options.small { ", small texts" } else { "" };
    format!("{}, {}, best of {rounds}{small}", processor(), env!("RUSTC_VERSION"))
}

/// The name of the processor, where the system tells it.
fn processor() -> String {
    let told = std::fs::read_to_string("/proc/cpuinfo").unwrap_or_default();
    let name = told.lines().find_map(|line| line.strip_prefix("model name"));
    match name.and_then(|rest| rest.split_once(':')) {
        Some((_, name)) => name.trim().to_string(),
        None => format!("unnamed {} processor", std::env::consts::ARCH),
    }
}
