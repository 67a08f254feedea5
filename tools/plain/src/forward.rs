//! A forward closed table: the edges into each point, backward from it over edges that are not negative (Morris 2014), with one dense row
//! under work and the rows that wait for it kept sparse. Edges stand in the form of this project, in which a link is not divided.

use crate::plan::Plan;
use std::cmp::Reverse;
use std::collections::BinaryHeap;

const ABSENT: i32 = i32::MAX;

#[derive(Clone, Copy, PartialEq, Eq)]
enum State {
    New,
    Open,
    Done,
}

/// A place of the dense row: a point, in the part of the ordinary edges or of one label of the target.
#[derive(Clone, Copy, PartialEq, Eq, PartialOrd, Ord)]
struct Place {
    part: u32,
    from: u32,
}

/// The row of a target that is being made; its weights stand in the dense row, or here while it waits.
struct Row {
    target: u32,
    touched: Vec<Place>,
    waiting: Vec<i32>,
    queue: BinaryHeap<Reverse<(i32, Place)>>,
}

/// What a row wants next.
enum Next {
    Made,
    First(u32),
    Cycle,
}

struct Search<'a> {
    plan: &'a Plan,
    /// For each point the negative edges of bounds and links into it.
    negative: Vec<Vec<(Place, i32)>>,
    /// For each point the ordinary edges of 0 or more into it: of bounds, and once its row is made all.
    forward: Vec<Vec<(u32, i32)>>,
    states: Vec<State>,
    dense: Vec<Vec<i32>>,
}

impl<'a> Search<'a> {
    fn of(plan: &'a Plan) -> Search<'a> {
        let points = plan.points.len();
        let parts = 1 + plan.begins.iter().map(Vec::len).max().unwrap_or(0);
        let mut search = Search {
            plan,
            negative: vec![vec![]; points],
            forward: vec![vec![]; points],
            states: vec![State::New; points],
            dense: vec![vec![ABSENT; points]; parts],
        };
        for bound in &plan.bounds {
            let weight = bound.most as i32;
            if weight < 0 {
                search.negative[bound.to as usize].push((Place { part: 0, from: bound.from }, weight));
            } else {
                search.forward[bound.to as usize].push((bound.from, weight));
            }
        }
        for begins in &plan.begins {
            for (part, &number) in begins.iter().enumerate() {
                let link = plan.link(number);
                let place = Place {
                    part: part as u32 + 1,
                    from: link.point,
                };
                search.negative[link.activation as usize].push((place, -link.high as i32));
            }
        }
        search
    }

    fn begin(&mut self, target: u32) -> Row {
        self.states[target as usize] = State::Open;
        let mut row = Row {
            target,
            touched: vec![],
            waiting: vec![],
            queue: BinaryHeap::new(),
        };
        for &(place, weight) in &self.negative[target as usize] {
            lower(&mut self.dense, &mut row, place, weight);
        }
        for &(from, weight) in &self.forward[target as usize] {
            lower(&mut self.dense, &mut row, Place { part: 0, from }, weight);
        }
        row
    }

    /// Settles the negative edges of a row, the least first, until another row is wanted.
    fn go(&mut self, row: &mut Row) -> Next {
        while let Some(&Reverse((weight, place))) = row.queue.peek() {
            if self.dense[place.part as usize][place.from as usize] != weight {
                row.queue.pop();
                continue;
            }
            match self.states[place.from as usize] {
                State::Open => return Next::Cycle,
                State::New if self.negative[place.from as usize].is_empty() => self.states[place.from as usize] = State::Done,
                State::New => return Next::First(place.from),
                State::Done => {}
            }
            row.queue.pop();
            self.settle(row, place, weight);
        }
        Next::Made
    }

    fn settle(&mut self, row: &mut Row, place: Place, weight: i32) {
        let mut label = None;
        if place.part > 0 {
            let number = self.plan.begins[row.target as usize][place.part as usize - 1];
            label = Some(number);
            let freed = weight.max(-(self.plan.link(number).low as i32));
            lower(&mut self.dense, row, Place { part: 0, from: place.from }, freed);
        }
        if let Some(number) = self.plan.ends[place.from as usize] {
            if label != Some(number) {
                let link = self.plan.link(number);
                lower(
                    &mut self.dense,
                    row,
                    Place {
                        part: place.part,
                        from: link.activation,
                    },
                    link.low as i32 + weight,
                );
            }
        }
        let dense = &mut self.dense;
        for &(from, first) in &self.forward[place.from as usize] {
            lower(dense, row, Place { part: place.part, from }, first + weight);
        }
    }

    /// Ends a row: what it has of 0 or more goes into the lists.
    fn finish(&mut self, mut row: Row) {
        for at in 0..row.touched.len() {
            let place = row.touched[at];
            let weight = self.dense[place.part as usize][place.from as usize];
            if place.part > 0 && weight >= 0 {
                lower(&mut self.dense, &mut row, Place { part: 0, from: place.from }, weight);
            }
        }
        let mut made = vec![];
        for place in &row.touched {
            let weight = std::mem::replace(&mut self.dense[place.part as usize][place.from as usize], ABSENT);
            if place.part == 0 && weight >= 0 {
                made.push((place.from, weight));
            }
        }
        self.forward[row.target as usize] = made;
        self.states[row.target as usize] = State::Done;
    }

    fn set_aside(&mut self, row: &mut Row) {
        for place in &row.touched {
            row.waiting
                .push(std::mem::replace(&mut self.dense[place.part as usize][place.from as usize], ABSENT));
        }
    }

    fn take_up(&mut self, row: &mut Row) {
        for (place, weight) in row.touched.iter().zip(row.waiting.drain(..)) {
            self.dense[place.part as usize][place.from as usize] = weight;
        }
    }

    /// Makes the row of a target, and first those that it wants; false if it came to a cycle.
    fn make(&mut self, target: u32) -> bool {
        let mut waiting: Vec<Row> = vec![];
        let mut row = self.begin(target);
        loop {
            match self.go(&mut row) {
                Next::Cycle => return false,
                Next::First(point) => {
                    self.set_aside(&mut row);
                    waiting.push(row);
                    row = self.begin(point);
                }
                Next::Made => {
                    self.finish(row);
                    let Some(next) = waiting.pop() else {
                        return true;
                    };
                    row = next;
                    self.take_up(&mut row);
                }
            }
        }
    }
}

fn lower(dense: &mut [Vec<i32>], row: &mut Row, place: Place, weight: i32) {
    let word = &mut dense[place.part as usize][place.from as usize];
    if weight < *word {
        if *word == ABSENT {
            row.touched.push(place);
        }
        *word = weight;
        if weight < 0 {
            row.queue.push(Reverse((weight, place)));
        }
    }
}

/// Whether the network of a plan is dynamically controllable.
pub fn is_controllable(plan: &Plan) -> bool {
    let mut search = Search::of(plan);
    (0..plan.points.len()).all(|point| {
        let wanted = search.states[point] == State::New && !search.negative[point].is_empty();
        !wanted || search.make(point as u32)
    })
}
