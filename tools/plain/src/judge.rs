//! The judge of certificates: a plan and then a certificate, read line by line, and whether the certificate shows what it says.
//!
//! Each line is read once and no text is kept: names become numbers as they are read. A rule line is judged at once, by the edges of the
//! lines before it; the entries of a table proof are judged when all of them have been read.

mod proof;
mod refutation;
mod stated;
mod text;

use std::fmt;
use std::io::BufRead;

use stated::Plan;
use text::{Fault, Line, Lines};

/// The greatest size of a weight that is judged.
const MOST_WEIGHT: u64 = 1_000_000_000_000;

/// The greatest size of a weight that is read.
const MOST_WRITTEN_WEIGHT: u64 = 999_999_999_999_999_999;

/// An edge, as a line of a certificate states it; its label is the number of a link.
#[derive(Clone, Copy)]
struct Edge {
    from: u16,
    to: u16,
    label: Option<u16>,
    weight: i64,
}

/// Why an input is not accepted, each at a line.
pub enum Stop {
    Read,
    Format(u64, &'static str),
    Limit(u64, &'static str),
    Plan(u64, &'static str),
    Refused(u64, String),
}

impl Stop {
    /// The exit status.
    pub fn status(&self) -> u8 {
        match self {
            Stop::Read => 5,
            Stop::Limit(..) => 4,
            Stop::Format(..) | Stop::Plan(..) => 3,
            Stop::Refused(..) => 1,
        }
    }
}

impl fmt::Display for Stop {
    fn fmt(&self, f: &mut fmt::Formatter) -> fmt::Result {
        match self {
            Stop::Read => write!(f, "error read"),
            Stop::Format(line, word) => write!(f, "error format {line} {word}"),
            Stop::Limit(line, which) => write!(f, "error limit {line} {which}"),
            Stop::Plan(line, word) => write!(f, "error plan {line} {word}"),
            Stop::Refused(line, why) => write!(f, "refused {line} {why}"),
        }
    }
}

/// What the names of a line of a certificate stand for. A name that the plan does not have counts as the number 0, and is remembered.
struct Names<'a> {
    plan: &'a Plan,
    all_known: bool,
}

impl Names<'_> {
    fn of(plan: &Plan) -> Names<'_> {
        Names { plan, all_known: true }
    }

    fn point(&mut self, word: &[u8]) -> Result<u16, Fault> {
        let found = self.plan.point(word)?;
        Ok(self.known(found))
    }

    fn bound(&mut self, word: &[u8]) -> Result<u16, Fault> {
        let found = self.plan.bound(word)?;
        Ok(self.known(found))
    }

    /// The link that ends in the point of a name.
    fn link(&mut self, word: &[u8]) -> Result<u16, Fault> {
        let found = self.plan.point(word)?.and_then(|point| self.plan.link_to(point));
        Ok(self.known(found))
    }

    fn known(&mut self, found: Option<u16>) -> u16 {
        self.all_known &= found.is_some();
        found.unwrap_or(0)
    }

    /// The first two tests of a line, given its weight.
    fn tested(&self, weight: i64) -> Result<(), String> {
        if !self.all_known {
            return Err("unknown-item".to_string());
        }
        if weight.unsigned_abs() > MOST_WEIGHT {
            return Err("weight-range".to_string());
        }
        Ok(())
    }
}

/// A delay, as the call gives it.
pub fn delay(word: &str) -> Option<i64> {
    text::natural(word.as_bytes(), stated::MOST_DELAY).ok().map(|number| number as i64)
}

/// Judges an input. The delay is that of the call, or else the plan's own holds.
pub fn judge(input: impl BufRead, delay: Option<i64>) -> Result<&'static str, Stop> {
    let mut lines = Lines::of(input);
    let plan = Plan::read(&mut lines, delay)?;
    let header = lines.next("no-header")?;
    match (header.first, header.rest.exactly()) {
        (b"certificate", Ok([b"1"])) => {}
        _ => return Err(header.fault(Fault::Word("no-header"))),
    }
    match kind_of(&lines.next("no-end")?)? {
        Kind::Refutation => refutation::judge(&plan, &mut lines),
        Kind::Table => proof::judge(&plan, &mut lines),
    }
}

enum Kind {
    Refutation,
    Table,
}

fn kind_of(line: &Line) -> Result<Kind, Stop> {
    let kind = match line.first {
        b"refutation" => Kind::Refutation,
        b"table" => Kind::Table,
        _ => return Err(line.fault(Fault::Word("unknown-word"))),
    };
    let [] = line.words()?;
    Ok(kind)
}
