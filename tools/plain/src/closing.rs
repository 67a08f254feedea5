//! The closed table, made once, without rounds.

use crate::plan::Plan;
use std::cmp::Reverse;
use std::collections::BinaryHeap;

const ABSENT: i32 = i32::MAX;
const BLOCK: usize = 32;

/// Dense rows of weights: one for each target of ordinary edges, and one for each label.
struct Dense<'a> {
    plan: &'a Plan,
    points: usize,
    words: Vec<i32>,
}

/// A row of the table: the ordinary edges of a target, or the edges of a label.
#[derive(Clone, Copy, PartialEq, Eq, PartialOrd, Ord)]
enum Kind {
    Ordinary,
    Labelled(u32),
}

impl<'a> Dense<'a> {
    fn base(plan: &'a Plan) -> Dense<'a> {
        let points = plan.points.len();
        let mut table = Dense {
            plan,
            points,
            words: vec![ABSENT; points * (points + plan.links.len())],
        };
        for bound in &plan.bounds {
            table.lower(bound.to, Kind::Ordinary, bound.from, bound.most as i32);
        }
        for (number, link) in plan.links.iter().enumerate() {
            table.lower(link.activation, Kind::Labelled(number as u32), link.point, -link.high as i32);
        }
        table
    }

    fn start(&self, target: u32, kind: Kind) -> usize {
        match kind {
            Kind::Ordinary => target as usize * self.points,
            Kind::Labelled(label) => (self.points + label as usize) * self.points,
        }
    }

    fn row(&self, target: u32, kind: Kind) -> &[i32] {
        let start = self.start(target, kind);
        &self.words[start..start + self.points]
    }

    fn weight(&self, target: u32, kind: Kind, from: u32) -> i32 {
        self.words[self.start(target, kind) + from as usize]
    }

    /// Lowers an edge, and where it is labelled the edge without its label.
    fn lower(&mut self, target: u32, kind: Kind, from: u32, weight: i32) -> bool {
        let place = self.start(target, kind) + from as usize;
        let falls = weight < self.words[place];
        if falls {
            self.words[place] = weight;
        }
        if let Kind::Labelled(label) = kind {
            let freed = weight.max(-(self.plan.link(label).low as i32));
            self.lower(target, Kind::Ordinary, from, freed);
        }
        falls
    }

    fn kinds(&self, target: u32) -> impl Iterator<Item = Kind> + 'a {
        let labels = self.plan.begins[target as usize].iter();
        std::iter::once(Kind::Ordinary).chain(labels.map(|&label| Kind::Labelled(label)))
    }

    /// The sources whose edges into `point`, followed by a negative edge of this weight and row, fall below the row.
    fn falling(&self, point: u32, target: u32, kind: Kind, weight: i32, mut each: impl FnMut(u32, i32)) {
        let firsts = self.row(point, Kind::Ordinary).chunks(BLOCK);
        let held = self.row(target, kind).chunks(BLOCK);
        for (block, (firsts, held)) in firsts.zip(held).enumerate() {
            let fall = |(&first, &held): (&i32, &i32)| (first != ABSENT) & (first.max(0).wrapping_add(weight) < held);
            if firsts.iter().zip(held).fold(false, |any, pair| any | fall(pair)) {
                for (at, pair) in firsts.iter().zip(held).enumerate().filter(|(_, pair)| fall(*pair)) {
                    each((block * BLOCK + at) as u32, pair.0.max(&0) + weight);
                }
            }
        }
    }

    /// The edge that the lower or the cross case gives, where a rule applies.
    fn over_link(&self, kind: Kind, from: u32, weight: i32) -> Option<(u32, i32)> {
        let own = self.plan.ends[from as usize].filter(|&own| kind != Kind::Labelled(own))?;
        let link = self.plan.link(own);
        Some((link.activation, link.low as i32 + weight))
    }
}

#[derive(Clone, Copy, PartialEq, Eq)]
enum Mark {
    New,
    Open,
    Done,
}

/// The row of a target under work, with its negative keys that wait.
struct Frame {
    target: u32,
    queue: BinaryHeap<Reverse<(i32, u32, Kind)>>,
}

impl Frame {
    fn of(table: &Dense, target: u32) -> Frame {
        let mut queue = BinaryHeap::new();
        for kind in table.kinds(target) {
            for (from, &weight) in table.row(target, kind).iter().enumerate().filter(|(_, weight)| **weight < 0) {
                queue.push(Reverse((weight, from as u32, kind)));
            }
        }
        Frame { target, queue }
    }
}

/// The closed table, and the order of its points.
pub struct Closed {
    #[allow(dead_code)]
    pub order: Vec<u32>,
}

/// Closes the base table of a plan, or tells by `None` that it has a cycle of negative ordinary edges.
pub fn close(plan: &Plan) -> Option<Closed> {
    let mut table = Dense::base(plan);
    loop {
        deepen(&mut table);
        let order = order(&table)?;
        match unmet(&table) {
            None => return Some(Closed { order }),
            Some((target, kind, from, weight)) => table.lower(target, kind, from, weight),
        };
    }
}

/// Lowers the table by what follows, each row after the rows of its negative edges, as far as there is no cycle.
fn deepen(table: &mut Dense) {
    let mut marks = vec![Mark::New; table.points];
    for point in 0..table.points as u32 {
        if marks[point as usize] == Mark::New {
            marks[point as usize] = Mark::Open;
            let mut frames = vec![Frame::of(table, point)];
            while let Some(frame) = frames.last_mut() {
                let target = frame.target;
                let Some(Reverse((weight, from, kind))) = frame.queue.pop() else {
                    marks[target as usize] = Mark::Done;
                    frames.pop();
                    continue;
                };
                if table.weight(target, kind, from) != weight {
                    continue;
                }
                match marks[from as usize] {
                    Mark::Open => return,
                    Mark::Done => settle(table, frame, weight, from, kind),
                    Mark::New => {
                        frame.queue.push(Reverse((weight, from, kind)));
                        marks[from as usize] = Mark::Open;
                        frames.push(Frame::of(table, from));
                    }
                }
            }
        }
    }
}

/// Offers what follows from a negative key of a row.
fn settle(table: &mut Dense, frame: &mut Frame, weight: i32, from: u32, kind: Kind) {
    let target = frame.target;
    let mut fallen = vec![];
    table.falling(from, target, kind, weight, |first, weight| fallen.push((first, weight)));
    fallen.extend(table.over_link(kind, from, weight));
    for (first, weight) in fallen {
        let before = table.weight(target, Kind::Ordinary, first);
        if table.lower(target, kind, first, weight) && weight < 0 {
            frame.queue.push(Reverse((weight, first, kind)));
        }
        let freed = table.weight(target, Kind::Ordinary, first);
        if kind != Kind::Ordinary && freed < before && freed < 0 {
            frame.queue.push(Reverse((freed, first, Kind::Ordinary)));
        }
    }
}

/// An edge that a rule gives and the table does not meet.
fn unmet(table: &Dense) -> Option<(u32, Kind, u32, i32)> {
    for target in 0..table.points as u32 {
        for kind in table.kinds(target) {
            for (from, &weight) in table.row(target, kind).iter().enumerate() {
                let from = from as u32;
                if let (Kind::Labelled(label), true) = (kind, weight != ABSENT) {
                    let freed = weight.max(-(table.plan.link(label).low as i32));
                    if freed < table.weight(target, Kind::Ordinary, from) {
                        return Some((target, Kind::Ordinary, from, freed));
                    }
                }
                if weight >= 0 {
                    continue;
                }
                let mut found = table
                    .over_link(kind, from, weight)
                    .filter(|&(first, weight)| weight < table.weight(target, kind, first));
                table.falling(from, target, kind, weight, |first, weight| found = found.or(Some((first, weight))));
                if let Some((first, weight)) = found {
                    return Some((target, kind, first, weight));
                }
            }
        }
    }
    None
}

/// The order of the points of a table, where it has no cycle of negative ordinary edges.
fn order(table: &Dense) -> Option<Vec<u32>> {
    let mut waits = vec![0usize; table.points];
    for target in 0..table.points as u32 {
        for (from, _) in table
            .row(target, Kind::Ordinary)
            .iter()
            .enumerate()
            .filter(|(_, weight)| **weight < 0)
        {
            waits[from] += 1;
        }
    }
    let mut free: BinaryHeap<Reverse<u32>> = (0..table.points as u32)
        .filter(|&point| waits[point as usize] == 0)
        .map(Reverse)
        .collect();
    let mut order = vec![];
    while let Some(Reverse(point)) = free.pop() {
        order.push(point);
        for (from, _) in table
            .row(point, Kind::Ordinary)
            .iter()
            .enumerate()
            .filter(|(_, weight)| **weight < 0)
        {
            waits[from] -= 1;
            if waits[from] == 0 {
                free.push(Reverse(from as u32));
            }
        }
    }
    (order.len() == table.points).then_some(order)
}
