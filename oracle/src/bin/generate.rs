//! `generate SEED RUNS [accounts|seats [LONGEST]]`: prints seeded runs of commands, `# run N` before each.
//! LONGEST is the most changing commands of a run.

#[path = "../runs.rs"]
mod runs;

use std::io::{self, BufWriter, Write};
use std::process::ExitCode;

use runs::{run, Mode, LONGEST};

fn wanted(words: &[String]) -> Option<(u64, u64, Mode, u64)> {
    if words.len() < 2 || words.len() > 4 {
        return None;
    }
    let mode = words
        .get(2)
        .map_or(Some(Mode::Accounts), |word| Mode::of(word))?;
    let longest = words
        .get(3)
        .map_or(Some(LONGEST), |word| word.parse().ok())?;
    Some((
        words[0].parse().ok()?,
        words[1].parse().ok()?,
        mode,
        longest,
    ))
    .filter(|w| w.3 > 0)
}

fn print(seed: u64, count: u64, mode: Mode, longest: u64) -> io::Result<()> {
    let mut out = BufWriter::new(io::stdout().lock());
    for number in 1..=count {
        writeln!(out, "# run {number}")?;
        for command in run(seed, number, mode, longest) {
            writeln!(out, "{command}")?;
        }
    }
    out.flush()
}

fn main() -> ExitCode {
    let words: Vec<String> = std::env::args().skip(1).collect();
    let Some((seed, count, mode, longest)) = wanted(&words) else {
        eprintln!("usage: generate SEED RUNS [accounts|seats [LONGEST]]");
        return ExitCode::FAILURE;
    };
    match print(seed, count, mode, longest) {
        Ok(()) => ExitCode::SUCCESS,
        Err(fault) => {
            eprintln!("generate: {fault}");
            ExitCode::FAILURE
        }
    }
}
