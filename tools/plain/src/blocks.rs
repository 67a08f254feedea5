//! The rounds of `told` with what makes them quick: weights stand in dense words, of which a block is tested at once before any place of
//! it is looked at; a row in the making has slim slots; and an edge that fell is 16 bytes until the round ends.

use crate::order::{order, Order};
use crate::plan::Plan;
use crate::rounds::{Node, Outcome, Rule};
use crate::table::Key;
use std::cmp::{Ordering, Reverse};
use std::collections::BinaryHeap;

const ABSENT: i32 = i32::MAX;
const NONE: u32 = u32::MAX;
const BLOCK: usize = 32;

/// Whether an edge into the first point of a negative edge of this weight, followed by it, falls below what is held at its place.
fn falls(first: i32, held: i32, weight: i32) -> bool {
    (first != ABSENT) & (first.max(0).wrapping_add(weight) < held)
}

/// Whether any of these does, without a branch, so that the compiler makes vectors of it.
fn any_falls(firsts: &[i32], held: &[i32], weight: i32) -> bool {
    let mut any = 0;
    for (&first, &held) in firsts.iter().zip(held) {
        any |= i32::from(falls(first, held, weight));
    }
    any != 0
}

/// The table: dense rows of weights and of the nodes of these, one for each target of ordinary edges and one for each label.
struct Table<'a> {
    plan: &'a Plan,
    points: usize,
    weights: Vec<i32>,
    nodes: Vec<u32>,
    /// For each target the keys that are there, in the order in which they came.
    keys: Vec<Vec<Key>>,
    /// For each point the keys that begin in it and were negative when they came, or fell below 0: the target and the label of each.
    negative: Vec<Vec<(u32, Option<u32>)>>,
}

impl<'a> Table<'a> {
    fn new(plan: &'a Plan) -> Table<'a> {
        let points = plan.points.len();
        let places = points * (points + plan.links.len());
        Table {
            plan,
            points,
            weights: vec![ABSENT; places],
            nodes: vec![NONE; places],
            keys: vec![vec![]; points],
            negative: vec![vec![]; points],
        }
    }

    fn start(&self, target: u32, label: Option<u32>) -> usize {
        label.map_or(target as usize, |label| self.points + label as usize) * self.points
    }

    fn place(&self, target: u32, key: Key) -> usize {
        self.start(target, key.label) + key.from as usize
    }

    /// The weights of the keys of a target with this label, by their sources.
    fn weights(&self, target: u32, label: Option<u32>) -> &[i32] {
        let start = self.start(target, label);
        &self.weights[start..start + self.points]
    }

    fn lower(&mut self, target: u32, key: Key, weight: i32, node: u32) {
        let place = self.place(target, key);
        let was = self.weights[place];
        if was <= weight {
            return;
        }
        if was == ABSENT {
            self.keys[target as usize].push(key);
        }
        if was >= 0 && weight < 0 {
            self.negative[key.from as usize].push((target, key.label));
        }
        self.weights[place] = weight;
        self.nodes[place] = node;
    }
}

/// A first premise by its source, a premise of the row by its place there, a link by its number.
#[derive(Clone, Copy)]
enum Why {
    After { first: u32, last: u32 },
    OverLink { link: u32, last: u32 },
    Dropped { last: u32 },
}

/// An edge that fell in a row: its place there, its weight, and why.
#[derive(Clone, Copy)]
struct Made {
    place: u32,
    weight: i32,
    why: Why,
}

/// A place of a row that can be settled. The least is that of least weight, and of several the first.
#[derive(Clone, Copy, PartialEq, Eq)]
struct Waiting {
    weight: i32,
    place: u32,
}

impl Waiting {
    /// A number that grows with the weight, and with the place among equal weights.
    fn rank(self) -> u64 {
        u64::from(self.weight as u32 ^ 1 << 31) << 32 | u64::from(self.place)
    }
}

impl Ord for Waiting {
    fn cmp(&self, other: &Waiting) -> Ordering {
        self.rank().cmp(&other.rank())
    }
}

impl PartialOrd for Waiting {
    fn partial_cmp(&self, other: &Waiting) -> Option<Ordering> {
        Some(self.cmp(other))
    }
}

/// The keys of a row by their places: for each source first its ordinary key, then those of the labels that the target activates.
#[derive(Clone, Copy)]
struct Places<'a> {
    labels: &'a [u32],
    width: usize,
}

impl<'a> Places<'a> {
    fn of(plan: &'a Plan, target: u32) -> Places<'a> {
        let labels = &plan.begins[target as usize];
        Places {
            labels,
            width: labels.len() + 1,
        }
    }

    fn column(&self, label: Option<u32>) -> usize {
        label.map_or(0, |label| 1 + self.labels.binary_search(&label).expect("a label of the target"))
    }

    fn label(&self, column: usize) -> Option<u32> {
        column.checked_sub(1).map(|number| self.labels[number])
    }

    fn key(&self, place: u32) -> Key {
        let place = place as usize;
        Key {
            from: (place / self.width) as u32,
            label: self.label(place % self.width),
        }
    }
}

/// What a row in the making holds, in room that the next row takes over.
#[derive(Default)]
struct Slots {
    /// By columns, one for each label, the weights of the sources.
    weights: Vec<i32>,
    /// Beside each the number of its cause among `whys`, or `NONE`.
    marks: Vec<u32>,
    whys: Vec<Why>,
    settled: Vec<bool>,
    queue: BinaryHeap<Reverse<Waiting>>,
}

struct Row<'a, 'b> {
    table: &'a Table<'a>,
    places: Places<'a>,
    slots: &'b mut Slots,
}

/// The edges that fall in the row of a target, in the order of settling, where it begins with these keys. `fell` has for each point the
/// ordinary edges into it that fell in the last round, or is nothing in the first one.
fn row(table: &Table, target: u32, begun: &[Waiting], fell: Option<&[Vec<u32>]>, slots: &mut Slots, made: &mut Vec<Made>) {
    if begun.is_empty() {
        return;
    }
    let places = Places::of(table.plan, target);
    slots.begin(table, target, places);
    slots.queue.clear();
    slots.queue.extend(begun.iter().copied().map(Reverse));
    Row { table, places, slots }.settle(fell, made);
}

/// Whether a negative key gives an edge that the table does not meet, with one of these sources of first premises.
fn improves(table: &Table, target: u32, key: Key, weight: i32, fell: &[u32]) -> bool {
    let (firsts, held) = (table.weights(key.from, None), table.weights(target, key.label));
    if fell.len() * 8 > table.points {
        return firsts
            .chunks(BLOCK)
            .zip(held.chunks(BLOCK))
            .any(|(firsts, held)| any_falls(firsts, held, weight));
    }
    fell.iter().any(|&from| falls(firsts[from as usize], held[from as usize], weight))
}

impl Slots {
    fn begin(&mut self, table: &Table, target: u32, places: Places) {
        self.weights.clear();
        for column in 0..places.width {
            self.weights.extend_from_slice(table.weights(target, places.label(column)));
        }
        self.marks.clear();
        self.marks.resize(self.weights.len(), NONE);
        self.settled.clear();
        self.settled.resize(self.weights.len(), false);
        self.whys.clear();
    }
}

impl Row<'_, '_> {
    fn settle(&mut self, fell: Option<&[Vec<u32>]>, made: &mut Vec<Made>) {
        while let Some(Reverse(Waiting { weight, place })) = self.slots.queue.pop() {
            let (from, column) = (place as usize / self.places.width, place as usize % self.places.width);
            let at = column * self.table.points + from;
            if std::mem::replace(&mut self.slots.settled[at], true) {
                continue;
            }
            match (self.slots.whys.get(self.slots.marks[at] as usize), fell) {
                (Some(&why), _) => {
                    made.push(Made { place, weight, why });
                    self.offer_all(place, weight);
                }
                (None, None) => self.offer_all(place, weight),
                (None, Some(fell)) => self.offer_fallen(place, weight, &fell[from]),
            }
        }
    }

    fn offer(&mut self, from: usize, column: usize, weight: i32, why: Why) {
        let at = column * self.table.points + from;
        if weight >= self.slots.weights[at] {
            return;
        }
        self.slots.weights[at] = weight;
        match self.slots.marks[at] {
            NONE => {
                self.slots.marks[at] = self.slots.whys.len() as u32;
                self.slots.whys.push(why);
            }
            mark => self.slots.whys[mark as usize] = why,
        }
        let place = (from * self.places.width + column) as u32;
        self.slots.queue.push(Reverse(Waiting { weight, place }));
    }

    /// Offers what follows from a key with all of the table.
    fn offer_all(&mut self, place: u32, weight: i32) {
        let (plan, key) = (self.table.plan, self.places.key(place));
        if let Some(label) = key.label {
            let freed = weight.max(-(plan.link(label).low as i32));
            self.offer(key.from as usize, 0, freed, Why::Dropped { last: place });
        }
        if weight >= 0 {
            return;
        }
        if let Some(own) = plan.ends[key.from as usize].filter(|own| key.label != Some(*own)) {
            let link = plan.link(own);
            let column = self.places.column(key.label);
            self.offer(
                link.activation as usize,
                column,
                link.low as i32 + weight,
                Why::OverLink { link: own, last: place },
            );
        }
        self.offer_after(place, weight);
    }

    /// Offers what follows from a negative key with all first premises.
    fn offer_after(&mut self, place: u32, weight: i32) {
        let table = self.table;
        let (key, column) = (self.places.key(place), place as usize % self.places.width);
        let firsts = table.weights(key.from, None);
        let keys = &table.keys[key.from as usize];
        if keys.len() * 12 < table.points {
            for first in keys.iter().filter(|first| first.label.is_none()) {
                self.offer_first(first.from as usize, firsts[first.from as usize], column, place, weight);
            }
            return;
        }
        for (number, block) in firsts.chunks(BLOCK).enumerate() {
            let start = number * BLOCK;
            let held = &self.slots.weights[column * table.points + start..][..block.len()];
            if any_falls(block, held, weight) {
                for (from, &first) in (start..).zip(block) {
                    self.offer_first(from, first, column, place, weight);
                }
            }
        }
    }

    /// Offers what follows from a negative key with the first premises that fell in the last round.
    fn offer_fallen(&mut self, place: u32, weight: i32, fell: &[u32]) {
        if fell.len() * 8 > self.table.points {
            // What did not fall gave nothing before, so all may be offered.
            return self.offer_after(place, weight);
        }
        let (key, column) = (self.places.key(place), place as usize % self.places.width);
        let firsts = self.table.weights(key.from, None);
        for &from in fell {
            self.offer_first(from as usize, firsts[from as usize], column, place, weight);
        }
    }

    fn offer_first(&mut self, from: usize, first: i32, column: usize, last: u32, weight: i32) {
        if first != ABSENT {
            self.offer(from, column, first.max(0) + weight, Why::After { first: from as u32, last });
        }
    }
}

pub struct Blocks<'a> {
    table: Table<'a>,
    nodes: Vec<Node>,
}

/// The rows of a round: the keys with which each begins, what fell, target after target, and where the edges of each end.
#[derive(Default)]
struct Round {
    begun: Vec<Vec<Waiting>>,
    made: Vec<Made>,
    ends: Vec<usize>,
}

impl Round {
    /// For each target the edges that fell in its row.
    fn rows(&self) -> impl Iterator<Item = (u32, std::ops::Range<usize>)> + '_ {
        let starts = std::iter::once(&0).chain(&self.ends);
        starts.zip(&self.ends).zip(0..).map(|((&start, &end), target)| (target, start..end))
    }
}

impl<'a> Blocks<'a> {
    /// The base nodes and their table.
    pub fn new(plan: &'a Plan) -> Blocks<'a> {
        let mut rounds = Blocks {
            table: Table::new(plan),
            nodes: vec![],
        };
        for (number, bound) in plan.bounds.iter().enumerate() {
            let key = Key {
                from: bound.from,
                label: None,
            };
            rounds.add(bound.to, key, bound.most as i32, Rule::Bound(number as u32));
        }
        for (number, link) in plan.links.iter().enumerate() {
            let key = Key {
                from: link.point,
                label: Some(number as u32),
            };
            rounds.add(link.activation, key, -link.high as i32, Rule::Link(number as u32));
        }
        rounds
    }

    pub fn nodes(&self) -> &[Node] {
        &self.nodes
    }

    /// The node of an ordinary edge of the table.
    pub fn node_of(&self, from: u32, to: u32) -> u32 {
        self.table.nodes[self.table.place(to, Key { from, label: None })]
    }

    fn add(&mut self, target: u32, key: Key, weight: i32, rule: Rule) {
        let number = self.nodes.len() as u32;
        self.nodes.push(Node::new(rule, target, key, weight));
        self.table.lower(target, key, weight, number);
    }

    pub fn propagate(&mut self) -> Outcome {
        let (mut rounds, mut slots, mut round) = (0, Slots::default(), Round::default());
        let mut fell: Option<Vec<Vec<u32>>> = None;
        let mut last = match self.order() {
            Ok(order) => order,
            Err(cycle) => return Outcome::Looped { rounds, cycle },
        };
        loop {
            round.made.clear();
            round.ends.clear();
            self.begin(fell.as_deref(), &mut round.begun);
            for (target, begun) in round.begun.iter().enumerate() {
                row(&self.table, target as u32, begun, fell.as_deref(), &mut slots, &mut round.made);
                round.ends.push(round.made.len());
            }
            rounds += 1;
            if round.made.is_empty() {
                let order = self.order().unwrap_or(last).points;
                return Outcome::Closed { rounds, order };
            }
            let fallen = self.take(&round);
            if !self.keeps(&last, &fallen) {
                match self.order() {
                    Ok(order) => last = order,
                    Err(cycle) => return Outcome::Looped { rounds, cycle },
                }
            }
            fell = Some(fallen);
        }
    }

    /// Finds for each target the keys with which its row begins: all, or the negative ones that give something with an edge that fell.
    fn begin(&self, fell: Option<&[Vec<u32>]>, begun: &mut Vec<Vec<Waiting>>) {
        let table = &self.table;
        begun.resize(table.points, vec![]);
        begun.iter_mut().for_each(Vec::clear);
        let mut push = |target: u32, key: Key, weight: i32| {
            let places = Places::of(table.plan, target);
            let place = (key.from as usize * places.width + places.column(key.label)) as u32;
            begun[target as usize].push(Waiting { weight, place });
        };
        let Some(fell) = fell else {
            for (target, keys) in (0..).zip(&table.keys) {
                keys.iter()
                    .for_each(|&key| push(target, key, table.weights[table.place(target, key)]));
            }
            return;
        };
        for (from, fell) in (0..).zip(fell).filter(|(_, fell)| !fell.is_empty()) {
            for &(target, label) in &table.negative[from as usize] {
                let key = Key { from, label };
                let weight = table.weights[table.place(target, key)];
                if improves(table, target, key, weight, fell) {
                    push(target, key, weight);
                }
            }
        }
    }

    /// Takes the rows of a round into the list and the table, and gives for each point the sources of the ordinary edges into it that fell.
    fn take(&mut self, round: &Round) -> Vec<Vec<u32>> {
        let plan = self.table.plan;
        let mut fell = vec![vec![]; self.table.points];
        // The first premises are nodes that the table has before the round.
        let mut firsts = Vec::with_capacity(round.made.len());
        for (target, row) in round.rows() {
            let places = Places::of(plan, target);
            firsts.extend(round.made[row].iter().map(|made| match made.why {
                Why::After { first, last } => self.node_of(first, places.key(last).from),
                _ => NONE,
            }));
        }
        for (target, row) in round.rows() {
            let places = Places::of(plan, target);
            for (made, &first) in round.made[row.clone()].iter().zip(&firsts[row]) {
                let key = places.key(made.place);
                let rule = self.rule(target, places, made.why, first);
                self.add(target, key, made.weight, rule);
                if key.label.is_none() {
                    fell[target as usize].push(key.from);
                }
            }
        }
        fell
    }

    fn rule(&self, target: u32, places: Places, why: Why, first: u32) -> Rule {
        let last = |place: u32| {
            let key = places.key(place);
            (key.label, self.table.nodes[self.table.place(target, key)])
        };
        match why {
            Why::After { last: place, .. } => match last(place) {
                (None, node) => Rule::No(first, node),
                (Some(_), node) => Rule::Up(first, node),
            },
            Why::OverLink { link, last: place } => match last(place) {
                (None, node) => Rule::Low(link, node),
                (Some(_), node) => Rule::Cross(link, node),
            },
            Why::Dropped { last: place } => Rule::Drop(last(place).1),
        }
    }

    /// Whether an order still has each negative ordinary edge that fell go from later to earlier.
    fn keeps(&self, order: &Order, fell: &[Vec<u32>]) -> bool {
        fell.iter().enumerate().all(|(target, fell)| {
            let weights = self.table.weights(target as u32, None);
            let mut sources = fell.iter().map(|&from| from as usize);
            sources.all(|from| weights[from] >= 0 || order.places[target] < order.places[from])
        })
    }

    fn order(&self) -> Result<Order, Vec<u32>> {
        let goes = |from: u32, to: u32| self.table.weights(to, None)[from as usize] < 0;
        order(
            self.table.points,
            |target| {
                let keys = self.table.keys[target as usize].iter();
                keys.filter(move |key| key.label.is_none() && goes(key.from, target))
                    .map(|key| key.from)
            },
            goes,
        )
    }
}
