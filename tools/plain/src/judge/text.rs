//! Lines, words, names and numbers of an input.

use super::Stop;
use std::io::{BufRead, Read};

const LONGEST_LINE: u64 = 65_536;
const MOST_INPUT: u64 = 1_073_741_824;
const LONGEST_NAME: usize = 32;

/// Why words are no line of a text, or a part none of a plan: a word that says it, or a limit that is passed.
#[derive(Clone, Copy)]
pub enum Fault {
    Word(&'static str),
    Limit(&'static str),
}

/// The lines of an input, which are read one after another into one buffer.
pub struct Lines<R> {
    input: R,
    bytes: Vec<u8>,
    number: u64,
    taken: u64,
}

/// A line that is not passed over: its number, its first word, and the words after that.
pub struct Line<'a> {
    pub number: u64,
    pub first: &'a [u8],
    pub rest: Words<'a>,
}

impl<R: BufRead> Lines<R> {
    pub fn of(input: R) -> Lines<R> {
        Lines {
            input,
            bytes: Vec::new(),
            number: 0,
            taken: 0,
        }
    }

    /// The next line that is not passed over; if there is none, the word says what is missing.
    pub fn next(&mut self, missing: &'static str) -> Result<Line<'_>, Stop> {
        loop {
            if !self.take()? {
                return Err(Stop::Format(self.number + 1, missing));
            }
            let first = Words(&self.bytes).next();
            if first.is_some_and(|word| word[0] != b'#') {
                break;
            }
        }
        let mut rest = Words(&self.bytes);
        Ok(Line {
            number: self.number,
            first: rest.next().unwrap_or_default(),
            rest,
        })
    }

    /// Reads the next line, without its line end; false if the input has ended.
    fn take(&mut self) -> Result<bool, Stop> {
        self.bytes.clear();
        let mut within = self.input.by_ref().take(LONGEST_LINE + 1);
        let length = within.read_until(b'\n', &mut self.bytes).map_err(|_| Stop::Read)? as u64;
        if length == 0 {
            return Ok(false);
        }
        self.number += 1;
        let is_ended = self.bytes.last() == Some(&b'\n');
        if length > LONGEST_LINE && !is_ended && self.taken + LONGEST_LINE <= MOST_INPUT {
            return Err(Stop::Limit(self.number, "line"));
        }
        self.taken += length;
        if self.taken > MOST_INPUT {
            return Err(Stop::Limit(self.number, "total"));
        }
        if is_ended {
            self.bytes.pop();
        }
        Ok(true)
    }
}

impl<'a> Line<'a> {
    /// The words after the first, which are so many.
    pub fn words<const N: usize>(&self) -> Result<[&'a [u8]; N], Stop> {
        self.rest.exactly().map_err(|fault| self.fault(fault))
    }

    pub fn fault(&self, fault: Fault) -> Stop {
        match fault {
            Fault::Word(word) => Stop::Format(self.number, word),
            Fault::Limit(which) => Stop::Limit(self.number, which),
        }
    }
}

/// The words of a piece of a line.
#[derive(Clone, Copy)]
pub struct Words<'a>(&'a [u8]);

impl<'a> Iterator for Words<'a> {
    type Item = &'a [u8];

    fn next(&mut self) -> Option<&'a [u8]> {
        let begin = self.0.iter().position(|&byte| !is_blank(byte))?;
        let rest = &self.0[begin..];
        let end = rest.iter().position(|&byte| is_blank(byte)).unwrap_or(rest.len());
        let (word, rest) = rest.split_at(end);
        self.0 = rest;
        Some(word)
    }
}

impl<'a> Words<'a> {
    /// These words, which are so many.
    pub fn exactly<const N: usize>(mut self) -> Result<[&'a [u8]; N], Fault> {
        let mut words = [&[][..]; N];
        for place in &mut words {
            *place = self.next().ok_or(Fault::Word("word-count"))?;
        }
        match self.next() {
            None => Ok(words),
            Some(_) => Err(Fault::Word("word-count")),
        }
    }
}

fn is_blank(byte: u8) -> bool {
    matches!(byte, b' ' | b'\t' | b'\r')
}

/// A word that is a name.
pub fn name(word: &[u8]) -> Result<&[u8], Fault> {
    let is_name = word.len() <= LONGEST_NAME
        && word.first().is_some_and(u8::is_ascii_alphabetic)
        && word.iter().all(|byte| byte.is_ascii_alphanumeric() || b"_-.".contains(byte));
    if is_name {
        Ok(word)
    } else {
        Err(Fault::Word("bad-name"))
    }
}

/// A number of this size at most.
pub fn integer(word: &[u8], most: u64) -> Result<i64, Fault> {
    match word.strip_prefix(b"-") {
        Some(b"0") => Err(Fault::Word("bad-number")),
        Some(digits) => Ok(-(natural(digits, most)? as i64)),
        None => Ok(natural(word, most)? as i64),
    }
}

/// A number from 0 to this one.
pub fn natural(word: &[u8], most: u64) -> Result<u64, Fault> {
    let is_number = word == b"0" || (word.first().is_some_and(|&first| first != b'0') && word.iter().all(u8::is_ascii_digit));
    if !is_number {
        return Err(Fault::Word("bad-number"));
    }
    word.iter()
        .try_fold(0u64, |number, &digit| number.checked_mul(10)?.checked_add(u64::from(digit - b'0')))
        .filter(|&number| number <= most)
        .ok_or(Fault::Limit("number"))
}
