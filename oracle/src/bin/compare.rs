//! `compare DRIVER LINKMAP COUNT SEED FILE`: both programs read the same seeded runs, and their answers are compared.
//! The smallest run found on which they disagree is left in FILE. The script `compare` calls it.

#[path = "../runs.rs"]
mod runs;

use std::fmt::Write as _;
use std::io::{Read, Write};
use std::path::{Path, PathBuf};
use std::process::{Child, Command, ExitCode, Stdio};
use std::sync::mpsc;
use std::thread;
use std::time::{Duration, Instant};

use runs::{run, Mode, LONGEST};

/// So many runs are read by one call of a program.
const BATCH: u64 = 100;
/// A program that takes longer over a batch, or over a single run, is ended.
const BATCH_LIMIT: Duration = Duration::from_secs(30);
const RUN_LIMIT: Duration = Duration::from_secs(3);
/// The shortest of the disagreeing runs are shrunk, as many as these, and for so long.
const SHRUNK: usize = 3;
const SHRINKING: Duration = Duration::from_secs(40);

struct Programs {
    driver: PathBuf,
    linkmap: PathBuf,
}

/// What a program told: its answers, and how it ended.
#[derive(PartialEq, Eq)]
struct Told {
    answers: Vec<u8>,
    ended: String,
    in_time: bool,
}

/// A run, by its number in its mode; several where they disagree only together.
#[derive(Clone)]
struct Case {
    mode: Mode,
    name: String,
    commands: Vec<String>,
}

fn read_all(mut from: impl Read + Send + 'static) -> mpsc::Receiver<Vec<u8>> {
    let (sender, receiver) = mpsc::channel();
    thread::spawn(move || {
        let mut bytes = Vec::new();
        let _ = from.read_to_end(&mut bytes);
        let _ = sender.send(bytes);
    });
    receiver
}

fn start(program: &Path, mode: Mode) -> Result<Child, String> {
    Command::new(program)
        .arg(mode.word())
        .env("RUST_BACKTRACE", "0")
        .stdin(Stdio::piped())
        .stdout(Stdio::piped())
        .stderr(Stdio::null())
        .spawn()
        .map_err(|fault| format!("could not be started: {fault}"))
}

/// The program's answers to a text.
fn ask(program: &Path, mode: Mode, text: &str, limit: Duration) -> Told {
    let mut child = match start(program, mode) {
        Ok(child) => child,
        Err(ended) => {
            return Told {
                answers: Vec::new(),
                ended,
                in_time: true,
            }
        }
    };
    let answers = read_all(child.stdout.take().unwrap());
    let mut input = child.stdin.take().unwrap();
    let text = text.as_bytes().to_vec();
    let writer = thread::spawn(move || {
        let _ = input.write_all(&text);
    });
    let answers = answers.recv_timeout(limit);
    let in_time = answers.is_ok();
    if !in_time {
        let _ = child.kill();
    }
    let ended = match child.wait() {
        Ok(_) if !in_time => format!("stopped after {} seconds", limit.as_secs()),
        Ok(status) => status.to_string(),
        Err(fault) => fault.to_string(),
    };
    let _ = writer.join();
    Told {
        answers: answers.unwrap_or_default(),
        ended,
        in_time,
    }
}

fn ask_both(programs: &Programs, mode: Mode, text: &str, limit: Duration) -> (Told, Told) {
    thread::scope(|scope| {
        let ours = scope.spawn(|| ask(&programs.linkmap, mode, text, limit));
        let theirs = ask(&programs.driver, mode, text, limit);
        (theirs, ours.join().unwrap())
    })
}

fn lines(told: &Told) -> impl Iterator<Item = &[u8]> {
    told.answers.split(|&byte| byte == b'\n')
}

/// The driver found petgraph to disagree with itself.
fn mismatch(line: &[u8]) -> bool {
    line.starts_with(b"driver: MISMATCH")
}

fn differ(theirs: &Told, ours: &Told) -> bool {
    theirs != ours || theirs.ended != "exit status: 0" || lines(theirs).any(mismatch)
}

fn new_maps(told: &Told) -> usize {
    let begins = |line: &&[u8]| {
        line.starts_with(b"new directed map") || line.starts_with(b"new undirected map")
    };
    lines(told).filter(begins).count()
}

fn text_of(commands: &[String]) -> String {
    commands
        .iter()
        .fold(String::new(), |text, command| text + command + "\n")
}

fn disagree(programs: &Programs, mode: Mode, commands: &[String]) -> bool {
    let (theirs, ours) = ask_both(programs, mode, &text_of(commands), RUN_LIMIT);
    differ(&theirs, &ours)
}

/// What a batch showed: how many of its runs are settled, those that disagree, and the lines of answers.
struct Shown {
    settled: u64,
    found: Vec<Case>,
    answers: usize,
}

/// The batch as a whole is compared; where it differs, each of its runs alone.
/// Where a program does not end in time, only up to the first run that disagrees.
fn compare_batch(programs: &Programs, mode: Mode, batch: &[Case]) -> Shown {
    let text: String = batch.iter().map(|case| text_of(&case.commands)).collect();
    let (theirs, ours) = ask_both(programs, mode, &text, BATCH_LIMIT);
    let answers = lines(&theirs).count() - 1;
    let mut found = Vec::new();
    let mut settled = batch.len() as u64;
    if !differ(&theirs, &ours) && new_maps(&theirs) == batch.len() {
        return Shown {
            settled,
            found,
            answers,
        };
    }
    for (index, case) in batch.iter().enumerate() {
        if disagree(programs, mode, &case.commands) {
            found.push(case.clone());
            if !(theirs.in_time && ours.in_time) {
                settled = index as u64 + 1;
                break;
            }
        }
    }
    if found.is_empty() {
        found.push(together(mode, batch));
    }
    Shown {
        settled,
        found,
        answers,
    }
}

fn together(mode: Mode, batch: &[Case]) -> Case {
    let name = format!(
        "{} to {} together",
        batch[0].name,
        batch[batch.len() - 1].name
    );
    let commands = batch
        .iter()
        .flat_map(|case| case.commands.clone())
        .collect();
    Case {
        mode,
        name,
        commands,
    }
}

/// The shortest front that disagrees, by halving: a longer front of it disagrees too.
fn front(programs: &Programs, mode: Mode, commands: &[String]) -> Vec<String> {
    let (mut agrees, mut disagrees) = (0, commands.len());
    while disagrees - agrees > 1 {
        let middle = (agrees + disagrees) / 2;
        match disagree(programs, mode, &commands[..middle]) {
            true => disagrees = middle,
            false => agrees = middle,
        }
    }
    commands[..disagrees].to_vec()
}

/// Commands are deleted, first many at once, while the programs still disagree. The first one, the new map, stays.
fn delete_commands(programs: &Programs, mode: Mode, commands: &mut Vec<String>, end: Instant) {
    let mut size = (commands.len() / 2).max(1);
    loop {
        let before = commands.len();
        let mut at = 1;
        while at < commands.len() && Instant::now() < end {
            let mut fewer = commands.clone();
            fewer.drain(at..(at + size).min(commands.len()));
            match disagree(programs, mode, &fewer) {
                true => *commands = fewer,
                false => at += size,
            }
        }
        if Instant::now() >= end || (size == 1 && commands.len() == before) {
            return;
        }
        size = (size / 2).max(1);
    }
}

/// Items of `extend` are deleted while the programs still disagree.
fn delete_items(programs: &Programs, mode: Mode, commands: &mut [String], end: Instant) {
    for at in 0..commands.len() {
        let mut item = 0;
        while commands[at].starts_with("extend") && Instant::now() < end {
            let words: Vec<&str> = commands[at].split(' ').collect();
            let Some(after) = words.get(1 + 3 * item..).filter(|rest| rest.len() >= 3) else {
                break;
            };
            let shorter = [&words[..1 + 3 * item], &after[3..]].concat().join(" ");
            let longer = std::mem::replace(&mut commands[at], shorter);
            if !disagree(programs, mode, commands) {
                commands[at] = longer;
                item += 1;
            }
        }
    }
}

/// All questions but the last line are deleted, if the programs still disagree then.
fn delete_questions(programs: &Programs, mode: Mode, commands: &mut Vec<String>) {
    let changes = ["node", "add", "extend", "set", "remove", "drop", "clear"];
    let last = commands.len() - 1;
    let kept = |(index, command): &(usize, &String)| {
        let word = command.split_whitespace().next().unwrap_or("");
        *index == 0 || *index == last || changes.contains(&word)
    };
    let fewer: Vec<String> = commands
        .iter()
        .enumerate()
        .filter(kept)
        .map(|(_, command)| command.clone())
        .collect();
    if disagree(programs, mode, &fewer) {
        *commands = fewer;
    }
}

fn shrink(programs: &Programs, case: &mut Case, end: Instant) {
    let shorter = front(programs, case.mode, &case.commands);
    if !disagree(programs, case.mode, &shorter) {
        return;
    }
    case.commands = shorter;
    delete_questions(programs, case.mode, &mut case.commands);
    delete_commands(programs, case.mode, &mut case.commands, end);
    delete_items(programs, case.mode, &mut case.commands, end);
}

/// The report of a case: remarks with the first line that differs, then the commands.
fn report(programs: &Programs, case: &Case, seed: u64) -> String {
    let (theirs, ours) = ask_both(programs, case.mode, &text_of(&case.commands), RUN_LIMIT);
    let shown = |line: Option<&[u8]>, told: &Told| match line {
        Some(line) if !line.is_empty() => String::from_utf8_lossy(line).into_owned(),
        _ => format!("(no more; {})", told.ended),
    };
    let (mut left, mut right) = (lines(&theirs), lines(&ours));
    let mut text = format!(
        "# {}, seed {seed}, run {}: petgraph and linkmap disagree\n",
        case.mode.word(),
        case.name
    );
    for number in 1.. {
        let (one, other) = (left.next(), right.next());
        if one == other && one.is_some_and(|line| !mismatch(line)) {
            continue;
        }
        let _ = writeln!(text, "# first at line {number} of the answers");
        let _ = writeln!(text, "#   petgraph: {}", shown(one, &theirs));
        let _ = writeln!(text, "#   linkmap:  {}", shown(other, &ours));
        break;
    }
    text + &text_of(&case.commands)
}

/// The case with the fewest commands, after the shortest ones have been shrunk.
fn smallest(programs: &Programs, mut cases: Vec<Case>) -> Case {
    let end = Instant::now() + SHRINKING;
    cases.sort_by_key(|case| case.commands.len());
    cases.truncate(SHRUNK);
    for case in &mut cases {
        shrink(programs, case, end);
    }
    cases
        .into_iter()
        .min_by_key(|case| text_of(&case.commands).len())
        .unwrap()
}

fn batch(seed: u64, mode: Mode, numbers: std::ops::RangeInclusive<u64>) -> Vec<Case> {
    let case = |number: u64| Case {
        mode,
        name: number.to_string(),
        commands: run(seed, number, mode, LONGEST),
    };
    numbers.map(case).collect()
}

/// All runs of a mode. Where a program does not end in time, the rest is left out.
fn compare_mode(programs: &Programs, mode: Mode, count: u64, seed: u64) -> (u64, Vec<Case>) {
    let (mut made, mut answers, mut found) = (0, 0, Vec::new());
    while made < count {
        let last = count.min(made + BATCH);
        let shown = compare_batch(programs, mode, &batch(seed, mode, made + 1..=last));
        made += shown.settled;
        answers += shown.answers;
        found.extend(shown.found);
        if made < last {
            break;
        }
    }
    println!("{}: {made} runs, {answers} lines of answers", mode.word());
    (made, found)
}

fn compare(programs: &Programs, count: u64, seed: u64, file: &Path) -> Result<bool, String> {
    let accounts = count - count / 2;
    let (mut made, mut found) = compare_mode(programs, Mode::Accounts, accounts, seed);
    if made == accounts {
        let seats = compare_mode(programs, Mode::Seats, count / 2, seed);
        made += seats.0;
        found.extend(seats.1);
    }
    let disagreed = found.len() as u64;
    if disagreed > 0 {
        let text = report(programs, &smallest(programs, found), seed);
        print!("{text}");
        std::fs::write(file, text).map_err(|fault| format!("{}: {fault}", file.display()))?;
    }
    println!(
        "{} runs agreed, {disagreed} disagreed (seed {seed})",
        made - disagreed
    );
    Ok(disagreed == 0)
}

fn main() -> ExitCode {
    let words: Vec<String> = std::env::args().skip(1).collect();
    let [driver, linkmap, count, seed, file] = &words[..] else {
        eprintln!("usage: compare DRIVER LINKMAP COUNT SEED FILE");
        return ExitCode::from(2);
    };
    let (Ok(count), Ok(seed)) = (count.parse(), seed.parse()) else {
        eprintln!("compare: COUNT and SEED are numbers");
        return ExitCode::from(2);
    };
    let (Ok(driver), Ok(linkmap)) = (
        Path::new(driver).canonicalize(),
        Path::new(linkmap).canonicalize(),
    ) else {
        eprintln!("compare: a program is missing");
        return ExitCode::from(2);
    };
    match compare(&Programs { driver, linkmap }, count, seed, Path::new(file)) {
        Ok(true) => ExitCode::SUCCESS,
        Ok(false) => ExitCode::from(1),
        Err(fault) => {
            eprintln!("compare: {fault}");
            ExitCode::from(2)
        }
    }
}
