//! The nodes and the price, and how a word is read as one of them.

use std::cmp::Ordering;
use std::fmt;
use std::hash::Hash;

use crate::commands::Fault;

/// A node that is written as a word.
pub trait Key: Copy + Ord + Hash + fmt::Display {
    fn read(word: &[u8]) -> Result<Self, Fault>;
}

#[derive(Clone, Copy, PartialEq, Eq, PartialOrd, Ord, Hash)]
pub struct Account(u32);

/// Compared by row, then section, then number.
#[derive(Clone, Copy, PartialEq, Eq, Hash)]
pub struct Seat {
    section: u8,
    row: u8,
    number: u16,
}

#[derive(Clone, Copy, Default, PartialEq, Eq)]
pub struct Price(pub u32);

impl Ord for Seat {
    fn cmp(&self, other: &Self) -> Ordering {
        self.row
            .cmp(&other.row)
            .then(self.section.cmp(&other.section))
            .then(self.number.cmp(&other.number))
    }
}

impl PartialOrd for Seat {
    fn partial_cmp(&self, other: &Self) -> Option<Ordering> {
        Some(self.cmp(other))
    }
}

impl Key for Account {
    fn read(word: &[u8]) -> Result<Self, Fault> {
        number(word).map(Account)
    }
}

impl Key for Seat {
    fn read(word: &[u8]) -> Result<Self, Fault> {
        let parts: Vec<&[u8]> = word.split(|&byte| byte == b'-').collect();
        let [section, row, number] = parts[..] else {
            return Err(Fault::NotASeat);
        };
        Ok(Seat {
            section: part(section)?,
            row: part(row)?,
            number: part(number)?,
        })
    }
}

impl fmt::Display for Account {
    fn fmt(&self, f: &mut fmt::Formatter<'_>) -> fmt::Result {
        write!(f, "{}", self.0)
    }
}

impl fmt::Display for Seat {
    fn fmt(&self, f: &mut fmt::Formatter<'_>) -> fmt::Result {
        write!(f, "{}-{}-{}", self.section, self.row, self.number)
    }
}

impl fmt::Display for Price {
    fn fmt(&self, f: &mut fmt::Formatter<'_>) -> fmt::Result {
        write!(f, "{}", self.0)
    }
}

/// A decimal number of at most 32 bits.
pub fn number(word: &[u8]) -> Result<u32, Fault> {
    match digits(word) {
        None => Err(Fault::NotANumber),
        Some(value) => u32::try_from(value).map_err(|_| Fault::Over32Bits),
    }
}

/// One of the three numbers of a seat.
fn part<T: TryFrom<u64>>(word: &[u8]) -> Result<T, Fault> {
    let value = digits(word).ok_or(Fault::NotASeat)?;
    T::try_from(value).map_err(|_| Fault::NotASeat)
}

/// The number that digits write, or the largest one where it is too large.
fn digits(word: &[u8]) -> Option<u64> {
    if word.is_empty() || !word.iter().all(u8::is_ascii_digit) {
        return None;
    }
    Some(word.iter().fold(0, |value: u64, byte| {
        value
            .saturating_mul(10)
            .saturating_add(u64::from(byte - b'0'))
    }))
}
