//! Rounds, until the table is closed or has a cycle of negative ordinary edges.

use crate::order::{order, Order};
use crate::plan::Plan;
use crate::rows::{row, row_by_letter, Fresh, Made, Slots, Why};
use crate::table::{Entry, Key, Table};

/// How a node was made; its premises are nodes before it.
#[derive(Clone, Copy, Debug)]
pub enum Rule {
    Bound(u32),
    Link(u32),
    No(u32, u32),
    Up(u32, u32),
    Low(u32, u32),
    Cross(u32, u32),
    Drop(u32),
}

/// A node of the derivation list.
#[derive(Clone, Copy, Debug)]
pub struct Node {
    pub rule: Rule,
    pub from: u16,
    pub to: u16,
    /// The number of the label's link, or 65,535 for none.
    label: u16,
    pub weight: i32,
}

impl Node {
    pub fn new(rule: Rule, target: u32, key: Key, weight: i32) -> Node {
        let label = key.label.map_or(u16::MAX, |label| label as u16);
        Node {
            rule,
            from: key.from as u16,
            to: target as u16,
            label,
            weight,
        }
    }

    pub fn label(&self) -> Option<u32> {
        (self.label != u16::MAX).then_some(self.label.into())
    }
}

#[derive(Clone, Copy, PartialEq, Eq)]
pub enum Way {
    Told,
    Stale,
    Letter,
}

pub enum Outcome {
    Closed {
        rounds: usize,
        #[allow(dead_code)]
        order: Vec<u32>,
    },
    Looped {
        rounds: usize,
        cycle: Vec<u32>,
    },
}

pub struct Rounds<'a> {
    plan: &'a Plan,
    table: Table,
    nodes: Vec<Node>,
}

impl<'a> Rounds<'a> {
    /// The base nodes and their table.
    pub fn new(plan: &'a Plan) -> Rounds<'a> {
        let mut rounds = Rounds {
            plan,
            table: Table::new(plan),
            nodes: vec![],
        };
        for (number, bound) in plan.bounds.iter().enumerate() {
            rounds.add(
                bound.to,
                Key {
                    from: bound.from,
                    label: None,
                },
                bound.most as i32,
                Rule::Bound(number as u32),
            );
        }
        for (number, link) in plan.links.iter().enumerate() {
            let key = Key {
                from: link.point,
                label: Some(number as u32),
            };
            rounds.add(link.activation, key, -link.high as i32, Rule::Link(number as u32));
        }
        rounds
    }

    pub fn nodes(&self) -> &[Node] {
        &self.nodes
    }

    /// The node of an ordinary edge of the table.
    pub fn node_of(&self, from: u32, to: u32) -> u32 {
        self.table.entry(to, Key { from, label: None }).expect("an edge of the table").node
    }

    fn add(&mut self, target: u32, key: Key, weight: i32, rule: Rule) {
        let number = self.nodes.len() as u32;
        self.nodes.push(Node::new(rule, target, key, weight));
        self.table.lower(target, key, weight, number);
    }

    pub fn propagate(&mut self, way: Way) -> Outcome {
        let mut rounds = 0;
        let mut slots = Slots::new();
        let mut fell: Option<Vec<Vec<Entry>>> = None;
        let mut order = match self.order() {
            Ok(order) => order,
            Err(cycle) => return Outcome::Looped { rounds, cycle },
        };
        loop {
            let targets = self.targets(way, fell.as_deref());
            let rows: Vec<(u32, Vec<Made>)> = targets
                .iter()
                .map(|&target| (target, self.row(way, target, fell.as_deref(), &mut slots)))
                .collect();
            rounds += 1;
            if rows.iter().all(|(_, made)| made.is_empty()) {
                // The order of the closed table, and not an older one that fits it too.
                if let Ok(last) = self.order() {
                    order = last;
                }
                return Outcome::Closed {
                    rounds,
                    order: order.points,
                };
            }
            fell = Some(self.take(rows));
            if !self.keeps(&order, fell.as_deref().unwrap_or_default()) || way == Way::Letter {
                match self.order() {
                    Ok(found) => order = found,
                    Err(cycle) => return Outcome::Looped { rounds, cycle },
                }
            }
        }
    }

    fn row(&self, way: Way, target: u32, fell: Option<&[Vec<Entry>]>, slots: &mut Slots) -> Vec<Made> {
        match (way, fell) {
            (Way::Letter, _) => row_by_letter(self.plan, &self.table, target, slots),
            (Way::Told, Some(fell)) => row(self.plan, &self.table, target, &Fresh::Fell(fell), slots),
            _ => row(self.plan, &self.table, target, &Fresh::All, slots),
        }
    }

    /// The targets of the next round, in order: all, or those that are stale.
    fn targets(&self, way: Way, fell: Option<&[Vec<Entry>]>) -> Vec<u32> {
        let all = 0..self.plan.points.len() as u32;
        match (way, fell) {
            (Way::Letter, _) | (_, None) => all.collect(),
            (_, Some(fell)) => {
                let mut are_stale = vec![false; self.plan.points.len()];
                for point in all.clone().filter(|&point| !fell[point as usize].is_empty()) {
                    for &target in self.table.targets_of(point) {
                        are_stale[target as usize] = true;
                    }
                }
                all.filter(|&target| are_stale[target as usize]).collect()
            }
        }
    }

    /// Takes the rows of a round into the list and the table, and gives for each point the ordinary edges into it that fell.
    fn take(&mut self, rows: Vec<(u32, Vec<Made>)>) -> Vec<Vec<Entry>> {
        let mut fell = vec![vec![]; self.plan.points.len()];
        for (target, row) in rows {
            for made in &row {
                let rule = self.rule(target, made.why);
                self.add(target, made.key, made.weight, rule);
            }
            let mut keys: Vec<Key> = row.iter().map(|made| made.key).filter(|key| key.label.is_none()).collect();
            keys.sort_unstable();
            let into: &mut Vec<Entry> = &mut fell[target as usize];
            into.extend(keys.iter().filter_map(|key| self.table.entry(target, *key).copied()));
        }
        fell
    }

    fn rule(&self, target: u32, why: Why) -> Rule {
        let last = |key: Key| self.table.entry(target, key).expect("a premise of the row").node;
        match why {
            Why::No(first, key) => Rule::No(first, last(key)),
            Why::Up(first, key) => Rule::Up(first, last(key)),
            Why::Low(link, key) => Rule::Low(link, last(key)),
            Why::Cross(link, key) => Rule::Cross(link, last(key)),
            Why::Drop(key) => Rule::Drop(last(key)),
        }
    }

    /// Whether an order still has each negative ordinary edge that fell go from later to earlier.
    fn keeps(&self, order: &Order, fell: &[Vec<Entry>]) -> bool {
        fell.iter().enumerate().all(|(target, edges)| {
            edges
                .iter()
                .all(|edge| edge.weight >= 0 || order.places[target] < order.places[edge.key.from as usize])
        })
    }

    /// The order of the points, or the first cycle of negative ordinary edges.
    fn order(&self) -> Result<Order, Vec<u32>> {
        let negative = |entry: &&Entry| entry.key.label.is_none() && entry.weight < 0;
        order(
            self.plan.points.len(),
            |target| self.table.row(target).iter().filter(negative).map(|entry| entry.key.from),
            |from, to| {
                self.table
                    .entry(to, Key { from, label: None })
                    .is_some_and(|entry| entry.weight < 0)
            },
        )
    }
}
