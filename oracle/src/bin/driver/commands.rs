//! A line of text read as a command, by COMMANDS.md.

use std::fmt;

use petgraph::{Direction, Incoming, Outgoing};

use crate::keys::{number, Key, Price};

pub enum Command<N> {
    NewMap {
        directed: bool,
        room: Option<(u32, u32)>,
    },
    Node(N),
    Add(N, N, Price),
    Extend(Vec<(N, N, Price)>),
    Set(N, N, Price),
    Remove(N, N),
    Drop(N),
    Clear,
    List,
    Nodes,
    Row(N),
    Neighbors(N, Option<Direction>),
    Edges(N, Option<Direction>),
    PriceOf(N, N),
    Degree(N),
    Counts,
}

pub enum Fault {
    UnknownWord,
    MissingWord,
    NotANumber,
    Over32Bits,
    NotASeat,
    NotADirection,
    SurplusWord,
}

impl fmt::Display for Fault {
    fn fmt(&self, f: &mut fmt::Formatter<'_>) -> fmt::Result {
        f.write_str(match self {
            Fault::UnknownWord => "unknown word",
            Fault::MissingWord => "missing word",
            Fault::NotANumber => "not a number",
            Fault::Over32Bits => "number over 32 bits",
            Fault::NotASeat => "not a seat",
            Fault::NotADirection => "not a direction",
            Fault::SurplusWord => "surplus word",
        })
    }
}

/// The words of a line that are left, from the left.
struct Words<'a>(Vec<&'a [u8]>, usize);

impl<'a> Words<'a> {
    fn of(line: &'a [u8]) -> Self {
        let blank = |byte: &u8| matches!(byte, b' ' | b'\t' | b'\r');
        let words = line.split(blank).filter(|word| !word.is_empty());
        Words(words.collect(), 0)
    }

    fn any_left(&self) -> bool {
        self.1 < self.0.len()
    }

    fn next(&mut self) -> Result<&'a [u8], Fault> {
        let word = self.0.get(self.1).ok_or(Fault::MissingWord)?;
        self.1 += 1;
        Ok(word)
    }

    fn number(&mut self) -> Result<u32, Fault> {
        number(self.next()?)
    }

    fn key<N: Key>(&mut self) -> Result<N, Fault> {
        N::read(self.next()?)
    }

    fn item<N: Key>(&mut self) -> Result<(N, N, Price), Fault> {
        Ok((self.key()?, self.key()?, Price(self.number()?)))
    }

    fn room(&mut self) -> Result<Option<(u32, u32)>, Fault> {
        if !self.any_left() {
            return Ok(None);
        }
        Ok(Some((self.number()?, self.number()?)))
    }

    fn direction(&mut self) -> Result<Option<Direction>, Fault> {
        if !self.any_left() {
            return Ok(None);
        }
        match self.next()? {
            b"out" => Ok(Some(Outgoing)),
            b"in" => Ok(Some(Incoming)),
            _ => Err(Fault::NotADirection),
        }
    }

    fn items<N: Key>(&mut self) -> Result<Vec<(N, N, Price)>, Fault> {
        let mut items = Vec::new();
        while self.any_left() {
            items.push(self.item()?);
        }
        Ok(items)
    }
}

/// The command of a line without its newline; none where the line is passed over.
pub fn parse<N: Key>(line: &[u8]) -> Result<Option<Command<N>>, Fault> {
    let mut words = Words::of(line);
    if line.first() == Some(&b'#') || !words.any_left() {
        return Ok(None);
    }
    let command = match words.next()? {
        b"directed" => Command::NewMap {
            directed: true,
            room: words.room()?,
        },
        b"undirected" => Command::NewMap {
            directed: false,
            room: words.room()?,
        },
        b"node" => Command::Node(words.key()?),
        b"add" => {
            let (from, to, price) = words.item()?;
            Command::Add(from, to, price)
        }
        b"extend" => Command::Extend(words.items()?),
        b"set" => {
            let (from, to, price) = words.item()?;
            Command::Set(from, to, price)
        }
        b"remove" => Command::Remove(words.key()?, words.key()?),
        b"drop" => Command::Drop(words.key()?),
        b"clear" => Command::Clear,
        b"list" => Command::List,
        b"nodes" => Command::Nodes,
        b"row" => Command::Row(words.key()?),
        b"neighbors" => Command::Neighbors(words.key()?, words.direction()?),
        b"edges" => Command::Edges(words.key()?, words.direction()?),
        b"price" => Command::PriceOf(words.key()?, words.key()?),
        b"degree" => Command::Degree(words.key()?),
        b"counts" => Command::Counts,
        _ => return Err(Fault::UnknownWord),
    };
    if words.any_left() {
        return Err(Fault::SurplusWord);
    }
    Ok(Some(command))
}
