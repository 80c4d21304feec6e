//! `driver [accounts|seats]`: the commands of COMMANDS.md carried out by petgraph's own code.

mod checks;
mod commands;
mod keys;
mod room;

use std::io::{self, BufRead, BufWriter, Write};
use std::process::ExitCode;

use petgraph::{Directed, Undirected};

use crate::commands::{parse, Command};
use crate::keys::{Account, Key, Seat};
use crate::room::Room;

enum Either<N: Key> {
    Directed(Room<N, Directed>),
    Undirected(Room<N, Undirected>),
}

fn new_map<N: Key>(
    directed: bool,
    room: Option<(u32, u32)>,
    out: &mut impl Write,
) -> io::Result<Either<N>> {
    if directed {
        let room = Room::new(room);
        room.announce(out)?;
        return Ok(Either::Directed(room));
    }
    let room = Room::new(room);
    room.announce(out)?;
    Ok(Either::Undirected(room))
}

fn run<N: Key>() -> io::Result<()> {
    let mut input = io::stdin().lock();
    let mut out = BufWriter::with_capacity(1 << 16, io::stdout().lock());
    let mut map = Either::Directed(Room::<N, Directed>::new(None));
    let mut line = Vec::new();
    for number in 1.. {
        line.clear();
        if input.read_until(b'\n', &mut line)? == 0 {
            break;
        }
        if line.ends_with(b"\n") {
            line.pop();
        }
        match parse(&line) {
            Err(fault) => writeln!(out, "line {number}: {fault}")?,
            Ok(None) => {}
            Ok(Some(Command::NewMap { directed, room })) => {
                map = new_map(directed, room, &mut out)?
            }
            Ok(Some(command)) => match &mut map {
                Either::Directed(room) => room.carry_out(command, &mut out)?,
                Either::Undirected(room) => room.carry_out(command, &mut out)?,
            },
        }
    }
    out.flush()
}

fn main() -> ExitCode {
    let words: Vec<String> = std::env::args().skip(1).collect();
    let words: Vec<&str> = words.iter().map(String::as_str).collect();
    let done = match words[..] {
        [] | ["accounts"] => run::<Account>(),
        ["seats"] => run::<Seat>(),
        _ => {
            eprintln!("usage: driver [accounts|seats]");
            return ExitCode::FAILURE;
        }
    };
    match done {
        Ok(()) => ExitCode::SUCCESS,
        Err(fault) => {
            eprintln!("driver: {fault}");
            ExitCode::FAILURE
        }
    }
}
