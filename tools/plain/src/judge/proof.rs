//! The judge of table proofs.

use super::stated::Plan;
use super::text::{integer, Fault, Lines};
use super::{Edge, Names, Stop, MOST_WRITTEN_WEIGHT};
use std::io::BufRead;

/// The word of a key that has no entry. It is beyond all weights, and no sum of it and a few of them leaves the range of words.
const ABSENT: i64 = 1 << 60;

/// A table proof as it was read: its points in order, its entries, and the least weight of each key.
struct Proof<'a> {
    plan: &'a Plan,
    order: Vec<u16>,
    entries: Vec<Edge>,
    /// For each target, and after these for each label, a word for each point in which an entry begins; none if there is no entry.
    rows: Vec<Vec<i64>>,
}

/// Judges a table proof up to its `end`.
pub fn judge(plan: &Plan, lines: &mut Lines<impl BufRead>) -> Result<&'static str, Stop> {
    let mut proof = Proof {
        plan,
        order: vec![],
        entries: vec![],
        rows: vec![vec![]; plan.point_count() + plan.links.len()],
    };
    let (mut number, mut has_entries, mut refused) = (0, false, None);
    loop {
        let line = lines.next("no-end")?;
        let mut names = Names::of(plan);
        let said = match line.first {
            b"end" => {
                let [] = line.words()?;
                break;
            }
            b"order" if !has_entries => {
                let [point] = line.words()?;
                names.point(point).map(Said::Point)
            }
            b"edge" => {
                let [from, to, weight] = line.words()?;
                edge(&mut names, from, to, weight).map(Said::Entry)
            }
            b"upper" => {
                let [from, label, weight] = line.words()?;
                labelled(&mut names, from, label, weight).map(Said::Entry)
            }
            _ => Err(Fault::Word("unknown-word")),
        };
        let said = said.map_err(|fault| line.fault(fault))?;
        number += 1;
        has_entries |= matches!(said, Said::Entry(_));
        if refused.is_none() {
            refused = proof.take(said, &names).err().map(|why| Stop::Refused(number, why));
        }
    }
    match refused {
        Some(refusal) => Err(refusal),
        None => proof.judged(),
    }
}

/// What a line says.
enum Said {
    Point(u16),
    Entry(Edge),
}

fn edge(names: &mut Names, from: &[u8], to: &[u8], weight: &[u8]) -> Result<Edge, Fault> {
    Ok(Edge {
        from: names.point(from)?,
        to: names.point(to)?,
        label: None,
        weight: integer(weight, MOST_WRITTEN_WEIGHT)?,
    })
}

fn labelled(names: &mut Names, from: &[u8], label: &[u8], weight: &[u8]) -> Result<Edge, Fault> {
    let (from, label) = (names.point(from)?, names.link(label)?);
    Ok(Edge {
        from,
        to: names.plan.links.get(usize::from(label)).map_or(0, |link| link.from),
        label: Some(label),
        weight: integer(weight, MOST_WRITTEN_WEIGHT)?,
    })
}

impl Proof<'_> {
    /// Takes what a line says, if it passes for itself.
    fn take(&mut self, said: Said, names: &Names) -> Result<(), String> {
        match said {
            Said::Point(point) => {
                names.tested(0)?;
                self.order.push(point);
            }
            Said::Entry(entry) => {
                names.tested(entry.weight)?;
                self.lower(&entry);
                self.entries.push(entry);
            }
        }
        Ok(())
    }

    /// Lowers the word of a key to the weight of an entry.
    fn lower(&mut self, entry: &Edge) {
        let place = self.row_of(entry.to, entry.label);
        let row = &mut self.rows[place];
        if row.is_empty() {
            row.resize(self.plan.point_count(), ABSENT);
        }
        let word = &mut row[usize::from(entry.from)];
        *word = entry.weight.min(*word);
    }

    fn row_of(&self, to: u16, label: Option<u16>) -> usize {
        match label {
            None => usize::from(to),
            Some(label) => self.plan.point_count() + usize::from(label),
        }
    }

    /// Whether no entry has these ends, this label, and this weight or less.
    fn lacks(&self, from: u16, to: u16, label: Option<u16>, weight: i64) -> bool {
        let word = self.rows[self.row_of(to, label)].get(usize::from(from));
        word.is_none_or(|&word| word > weight)
    }

    fn judged(&self) -> Result<&'static str, Stop> {
        self.has_base().map_err(|why| Stop::Refused(0, why))?;
        self.has_order()?;
        self.is_closed()?;
        Ok("accepted controllable")
    }

    /// The edges of all bounds and links stand in the table.
    fn has_base(&self) -> Result<(), String> {
        let (bounds, links) = (&self.plan.bounds, &self.plan.links);
        if let Some(missing) = bounds.iter().position(|bound| self.lacks(bound.from, bound.to, None, bound.most)) {
            return Err(format!("missing-base bound {}", self.plan.bound_name(missing as u16)));
        }
        let number = |place: usize| Some(place as u16);
        let mut numbered = links.iter().enumerate();
        match numbered.find(|&(place, link)| self.lacks(link.to, link.from, number(place), -link.high)) {
            Some((_, missing)) => Err(format!("missing-base link {}", self.plan.point_name(missing.to))),
            None => Ok(()),
        }
    }

    /// Each point stands in the order once, and negative entries without a label go to earlier points.
    fn has_order(&self) -> Result<(), Stop> {
        let refused = |line: usize| Err(Stop::Refused(line as u64, "order-broken".to_string()));
        let mut places = vec![None; self.plan.point_count()];
        for (place, &point) in self.order.iter().enumerate() {
            if places[usize::from(point)].replace(place).is_some() {
                return refused(place + 1);
            }
        }
        if self.order.len() < places.len() {
            return refused(0);
        }
        let rises = |entry: &Edge| {
            let (from, to) = (places[usize::from(entry.from)], places[usize::from(entry.to)]);
            entry.label.is_none() && entry.weight < 0 && to >= from
        };
        match self.entries.iter().position(rises) {
            Some(place) => refused(self.order.len() + place + 1),
            None => Ok(()),
        }
    }

    /// Whatever the rules give from entries stands in the table.
    fn is_closed(&self) -> Result<(), Stop> {
        let firsts: Vec<Vec<i64>> = self.rows[..self.plan.point_count()].iter().map(|row| as_firsts(row)).collect();
        match self.entries.iter().position(|entry| self.opens(&firsts, entry)) {
            Some(place) => Err(Stop::Refused((self.order.len() + place + 1) as u64, "not-closed".to_string())),
            None => Ok(()),
        }
    }

    /// Whether some rule, with an entry as its second premise, gives an edge that does not stand in the table.
    fn opens(&self, firsts: &[Vec<i64>], entry: &Edge) -> bool {
        let Edge { from, to, label, weight } = *entry;
        if let Some(label) = label {
            if self.lacks(from, to, None, weight.max(-self.plan.link(label).low)) {
                return true;
            }
        }
        if weight >= 0 {
            return false;
        }
        if goes_below(&firsts[usize::from(from)], weight, &self.rows[self.row_of(to, label)]) {
            return true;
        }
        match self.plan.link_to(from) {
            Some(number) if label != Some(number) => {
                let link = self.plan.link(number);
                self.lacks(link.from, to, label, link.low + weight)
            }
            _ => false,
        }
    }
}

/// The words of a row as those of first premises: below 0 they count as 0. That of an absent one is beyond `ABSENT` with a weight, too.
fn as_firsts(row: &[i64]) -> Vec<i64> {
    row.iter()
        .map(|&word| if word == ABSENT { 2 * ABSENT } else { word.max(0) })
        .collect()
}

/// Whether, at some point, the word of a first premise and this weight go below the word of another row. All differences are looked at, and
/// a processor takes several at once: the sign of all of them together is set if one of them is below 0.
fn goes_below(firsts: &[i64], weight: i64, row: &[i64]) -> bool {
    firsts
        .iter()
        .zip(row)
        .fold(0, |signs, (first, word)| signs | (first + weight - word))
        < 0
}
