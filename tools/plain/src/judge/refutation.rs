//! The judge of refutations.

use super::stated::Plan;
use super::text::{integer, natural, Fault, Line, Lines};
use super::{Edge, Names, Stop, MOST_WRITTEN_WEIGHT};
use std::io::BufRead;

/// The rule of a line, with what it names. A line joins two others by `no` or `up`, and goes back over a link by `low` or `cross`, as it
/// has a label or none.
enum Rule {
    Bound(u16),
    Link(u16),
    Join(u64, u64),
    Back(u16, u64),
    Drop(u64),
}

/// Judges a refutation up to its `end`.
pub fn judge(plan: &Plan, lines: &mut Lines<impl BufRead>) -> Result<&'static str, Stop> {
    let mut edges: Vec<Edge> = vec![];
    let mut walk = Walk::default();
    let (mut rules, mut refused) = (0, None);
    loop {
        let line = lines.next("no-end")?;
        match line.first {
            b"end" => {
                let [] = line.words()?;
                break;
            }
            b"walk" => {
                let [step] = line.words()?;
                let step = natural(step, u64::MAX).map_err(|fault| line.fault(fault))?;
                walk.go(edge(&edges, step).ok());
            }
            _ if walk.steps > 0 => return Err(line.fault(Fault::Word("unknown-word"))),
            _ => {
                rules += 1;
                let mut names = Names::of(plan);
                let (rule, stated) = read(&line, &mut names).map_err(|fault| line.fault(fault))?;
                if refused.is_none() {
                    let passed = names.tested(stated.weight).and_then(|()| follows(plan, &edges, &rule, &stated));
                    match passed {
                        Ok(()) => edges.push(stated),
                        Err(why) => refused = Some(Stop::Refused(rules, why)),
                    }
                }
            }
        }
    }
    match refused {
        Some(refusal) => Err(refusal),
        None => walk.ends(rules),
    }
}

/// The rule of a line, and the edge that it states.
fn read(line: &Line, names: &mut Names) -> Result<(Rule, Edge), Fault> {
    let (rule, from, to, label, weight);
    match line.first {
        b"bound" => {
            let bound;
            [bound, from, to, weight] = line.rest.exactly()?;
            rule = Rule::Bound(names.bound(bound)?);
            label = None;
        }
        b"link" => {
            let link;
            [link, from, to, weight] = line.rest.exactly()?;
            rule = Rule::Link(names.link(link)?);
            label = Some(link);
        }
        b"no" => {
            let (first, second);
            [first, second, from, to, weight] = line.rest.exactly()?;
            rule = Rule::Join(natural(first, u64::MAX)?, natural(second, u64::MAX)?);
            label = None;
        }
        b"up" => {
            let (first, second, link);
            [first, second, from, to, link, weight] = line.rest.exactly()?;
            rule = Rule::Join(natural(first, u64::MAX)?, natural(second, u64::MAX)?);
            label = Some(link);
        }
        b"low" => {
            let (link, second);
            [link, second, from, to, weight] = line.rest.exactly()?;
            rule = Rule::Back(names.link(link)?, natural(second, u64::MAX)?);
            label = None;
        }
        b"cross" => {
            let (link, second, other);
            [link, second, from, to, other, weight] = line.rest.exactly()?;
            rule = Rule::Back(names.link(link)?, natural(second, u64::MAX)?);
            label = Some(other);
        }
        b"drop" => {
            let premise;
            [premise, from, to, weight] = line.rest.exactly()?;
            rule = Rule::Drop(natural(premise, u64::MAX)?);
            label = None;
        }
        _ => return Err(Fault::Word("unknown-word")),
    }
    // (the fields are read in this order, which is that of the words)
    let stated = Edge {
        from: names.point(from)?,
        to: names.point(to)?,
        label: label.map(|word| names.link(word)).transpose()?,
        weight: integer(weight, MOST_WRITTEN_WEIGHT)?,
    };
    Ok((rule, stated))
}

/// The edge of the line of a number.
fn edge(edges: &[Edge], number: u64) -> Result<&Edge, String> {
    let place = number.checked_sub(1).and_then(|place| usize::try_from(place).ok());
    place.and_then(|place| edges.get(place)).ok_or_else(|| "premise".to_string())
}

/// Whether an edge follows from those before it by a rule.
fn follows(plan: &Plan, edges: &[Edge], rule: &Rule, stated: &Edge) -> Result<(), String> {
    let (ends, least) = match *rule {
        Rule::Bound(number) => {
            let bound = &plan.bounds[usize::from(number)];
            (Some((bound.from, bound.to)), bound.most)
        }
        Rule::Link(number) => {
            let link = plan.link(number);
            (Some((link.to, link.from)), -link.high)
        }
        Rule::Join(first, second) => {
            let (first, second) = (edge(edges, first)?, edge(edges, second)?);
            unless(first.label.is_none() && second.label == stated.label, "label")?;
            let meet = first.to == second.from;
            (meet.then_some((first.from, second.to)), first.weight + second.weight)
        }
        Rule::Back(number, second) => {
            let second = edge(edges, second)?;
            unless(second.label == stated.label, "label")?;
            unless(second.weight < 0 && stated.label != Some(number), "rule-condition")?;
            let link = plan.link(number);
            let meet = link.to == second.from;
            (meet.then_some((link.from, second.to)), link.low + second.weight)
        }
        Rule::Drop(premise) => {
            let premise = edge(edges, premise)?;
            let label = premise.label.ok_or("label")?;
            (Some((premise.from, premise.to)), premise.weight.max(-plan.link(label).low))
        }
    };
    unless(ends == Some((stated.from, stated.to)), "ends")?;
    if stated.weight < least {
        return Err(format!("too-low {} {least}", stated.weight));
    }
    Ok(())
}

fn unless(holds: bool, why: &str) -> Result<(), String> {
    if holds {
        Ok(())
    } else {
        Err(why.to_string())
    }
}

/// A walk as far as it was read: where it began and where it stands, and its first steps that are no line, or begin elsewhere.
#[derive(Default)]
struct Walk {
    steps: u64,
    begin: u16,
    at: u16,
    total: i128,
    unknown: Option<u64>,
    broken: Option<u64>,
}

impl Walk {
    fn go(&mut self, edge: Option<&Edge>) {
        self.steps += 1;
        let Some(edge) = edge else {
            self.unknown.get_or_insert(self.steps);
            return;
        };
        if self.steps == 1 {
            self.begin = edge.from;
        } else if edge.from != self.at {
            self.broken.get_or_insert(self.steps);
        }
        self.at = edge.to;
        self.total += i128::from(edge.weight);
    }

    /// Whether it leads back below 0; so many rule lines stand before it.
    fn ends(&self, rules: u64) -> Result<&'static str, Stop> {
        let refused = |step: u64, why: &str| Err(Stop::Refused(rules + step, why.to_string()));
        if let Some(step) = self.unknown {
            return refused(step, "premise");
        }
        if self.steps == 0 {
            return refused(1, "walk-broken");
        }
        if let Some(step) = self.broken {
            return refused(step, "walk-broken");
        }
        if self.at != self.begin {
            return refused(self.steps, "walk-broken");
        }
        if self.total >= 0 {
            return refused(self.steps, &format!("walk-not-negative {}", self.total));
        }
        Ok("accepted not controllable")
    }
}
