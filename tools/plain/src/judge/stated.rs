//! The plan of an input, with all its faults, in its shown form.

use super::text::{integer, name, natural, Fault, Line, Lines};
use super::Stop;
use std::collections::HashMap;
use std::io::BufRead;

const MOST_POINTS: usize = 2_000;
const MOST_BOUNDS: usize = 20_000;
const MOST_LINKS: usize = 800;
const MOST_NUMBER: u64 = 1_000_000_000;
pub const MOST_DELAY: u64 = 1_000_000;
const LONGEST_SHORT_NAME: usize = 28;

pub struct Bound {
    pub from: u16,
    pub to: u16,
    pub most: i64,
}

pub struct Link {
    pub from: u16,
    pub low: i64,
    pub high: i64,
    pub to: u16,
}

type Numbers = HashMap<Box<[u8]>, u16>;

#[derive(Default)]
pub struct Plan {
    points: Numbers,
    bound_numbers: Numbers,
    pub bounds: Vec<Bound>,
    pub links: Vec<Link>,
    /// For each point the link that ends in it.
    ends: Vec<Option<u16>>,
}

/// What a line of a plan declares.
enum Part<'a> {
    Point(&'a [u8]),
    Bound(&'a [u8], &'a [u8], &'a [u8], i64),
    Between(&'a [u8], &'a [u8], i64, i64, &'a [u8]),
    Link(&'a [u8], i64, i64, &'a [u8]),
    Delay(i64),
    End,
}

impl Plan {
    /// Reads a plan up to its `end`. The delay is the plan's own if none is given.
    pub fn read(lines: &mut Lines<impl BufRead>, delay: Option<i64>) -> Result<Plan, Stop> {
        let header = lines.next("no-header")?;
        let is_second = match (header.first, header.rest.exactly()) {
            (b"stnu", Ok([b"1"])) => false,
            (b"stnu", Ok([b"2"])) => true,
            _ => return Err(header.fault(Fault::Word("no-header"))),
        };
        let mut plan = Plan::default();
        let (mut own_delay, mut may_delay, mut refused) = (0, is_second, None);
        loop {
            let line = lines.next("no-end")?;
            let part = Part::of(&line, is_second, may_delay).map_err(|fault| line.fault(fault))?;
            may_delay = false;
            match part {
                Part::End => break,
                Part::Delay(number) => own_delay = number,
                _ if refused.is_some() => {}
                _ => refused = plan.add(part).err().map(|fault| (line.number, fault)),
            }
        }
        match refused {
            Some((line, Fault::Word(word))) => Err(Stop::Plan(line, word)),
            Some((line, Fault::Limit(which))) => Err(Stop::Limit(line, which)),
            None => {
                plan.show(delay.unwrap_or(own_delay));
                Ok(plan)
            }
        }
    }

    fn add(&mut self, part: Part) -> Result<(), Fault> {
        match part {
            Part::Point(name) => self.add_point(name),
            Part::Bound(name, from, to, most) => self.add_bound(name, from, to, most),
            Part::Between(name, from, low, high, to) => {
                self.add_bound(&[name, b".max"].concat(), from, to, high)?;
                self.add_bound(&[name, b".min"].concat(), to, from, -low)
            }
            Part::Link(from, low, high, to) => self.add_link(from, low, high, to),
            Part::Delay(_) | Part::End => Ok(()),
        }
    }

    fn add_point(&mut self, name: &[u8]) -> Result<(), Fault> {
        add_name(&mut self.points, name, MOST_POINTS, "points")?;
        self.ends.push(None);
        Ok(())
    }

    fn add_bound(&mut self, name: &[u8], from: &[u8], to: &[u8], most: i64) -> Result<(), Fault> {
        if self.bound_numbers.contains_key(name) {
            return Err(Fault::Word("duplicate-name"));
        }
        let (from, to) = (self.declared(from)?, self.declared(to)?);
        add_name(&mut self.bound_numbers, name, MOST_BOUNDS, "bounds")?;
        self.bounds.push(Bound { from, to, most });
        Ok(())
    }

    fn add_link(&mut self, from: &[u8], low: i64, high: i64, to: &[u8]) -> Result<(), Fault> {
        let (from, to) = (self.declared(from)?, self.declared(to)?);
        if from == to {
            return Err(Fault::Word("link-to-itself"));
        }
        if self.link_to(to).is_some() {
            return Err(Fault::Word("two-links-on-point"));
        }
        if low < 1 || high < low {
            return Err(Fault::Word("bad-interval"));
        }
        if self.links.len() == MOST_LINKS {
            return Err(Fault::Limit("links"));
        }
        self.ends[usize::from(to)] = Some(self.links.len() as u16);
        self.links.push(Link { from, low, high, to });
        Ok(())
    }

    fn declared(&self, name: &[u8]) -> Result<u16, Fault> {
        self.points.get(name).copied().ok_or(Fault::Word("unknown-name"))
    }

    /// From now on the end of each link stands for the moment at which it is seen.
    fn show(&mut self, delay: i64) {
        let lag = |point: u16| if self.ends[usize::from(point)].is_some() { delay } else { 0 };
        for bound in &mut self.bounds {
            bound.most += lag(bound.to) - lag(bound.from);
        }
        for link in &mut self.links {
            let later = delay - lag(link.from);
            link.low += later;
            link.high += later;
        }
    }

    pub fn point_count(&self) -> usize {
        self.ends.len()
    }

    /// The point of a name, if there is one. What a plan names is a name, so only other words are tested.
    pub fn point(&self, word: &[u8]) -> Result<Option<u16>, Fault> {
        number_of(&self.points, word)
    }

    /// The bound of a name, if there is one.
    pub fn bound(&self, word: &[u8]) -> Result<Option<u16>, Fault> {
        number_of(&self.bound_numbers, word)
    }

    /// The link that ends in a point, if one does.
    pub fn link_to(&self, point: u16) -> Option<u16> {
        self.ends[usize::from(point)]
    }

    pub fn link(&self, number: u16) -> &Link {
        &self.links[usize::from(number)]
    }

    pub fn point_name(&self, point: u16) -> String {
        name_of(&self.points, point)
    }

    pub fn bound_name(&self, bound: u16) -> String {
        name_of(&self.bound_numbers, bound)
    }
}

fn add_name(numbers: &mut Numbers, name: &[u8], most: usize, which: &'static str) -> Result<(), Fault> {
    if numbers.contains_key(name) {
        return Err(Fault::Word("duplicate-name"));
    }
    if numbers.len() == most {
        return Err(Fault::Limit(which));
    }
    numbers.insert(name.into(), numbers.len() as u16);
    Ok(())
}

fn number_of(numbers: &Numbers, word: &[u8]) -> Result<Option<u16>, Fault> {
    match numbers.get(word) {
        Some(&number) => Ok(Some(number)),
        None => name(word).map(|_| None),
    }
}

/// The name of a number, which is looked for among all.
fn name_of(numbers: &Numbers, number: u16) -> String {
    let found = numbers.iter().find(|(_, &other)| other == number);
    found
        .map(|(name, _)| String::from_utf8_lossy(name).into_owned())
        .unwrap_or_default()
}

impl<'a> Part<'a> {
    fn of(line: &Line<'a>, is_second: bool, may_delay: bool) -> Result<Part<'a>, Fault> {
        Ok(match line.first {
            b"point" => {
                let [point] = line.rest.exactly()?;
                Part::Point(name(point)?)
            }
            b"bound" => {
                let [bound, from, to, most] = line.rest.exactly()?;
                Part::Bound(name(bound)?, name(from)?, name(to)?, integer(most, MOST_NUMBER)?)
            }
            b"link" => {
                let [from, low, high, to] = line.rest.exactly()?;
                Part::Link(name(from)?, integer(low, MOST_NUMBER)?, integer(high, MOST_NUMBER)?, name(to)?)
            }
            b"between" if is_second => {
                let [bounds, from, low, high, to] = line.rest.exactly()?;
                let (bounds, from) = (short_name(bounds)?, name(from)?);
                Part::Between(bounds, from, integer(low, MOST_NUMBER)?, integer(high, MOST_NUMBER)?, name(to)?)
            }
            b"delay" if may_delay => {
                let [delay] = line.rest.exactly()?;
                Part::Delay(natural(delay, MOST_DELAY)? as i64)
            }
            b"end" => {
                let [] = line.rest.exactly()?;
                Part::End
            }
            _ => return Err(Fault::Word("unknown-word")),
        })
    }
}

fn short_name(word: &[u8]) -> Result<&[u8], Fault> {
    if word.len() > LONGEST_SHORT_NAME {
        return Err(Fault::Word("bad-name"));
    }
    name(word)
}
