//! Morris 2014: backward propagation from the points into which negative edges go. Each link is first divided: a point comes its least
//! duration after its activation point, and what is left of its duration begins there.

use crate::plan::Plan;
use std::cmp::Reverse;
use std::collections::BinaryHeap;

const ABSENT: i64 = i64::MAX;

/// Of which link an edge is the lower-case edge, or the upper-case edge.
#[derive(Clone, Copy, PartialEq, Eq)]
enum Kind {
    Ordinary,
    Lower(u32),
    Upper(u32),
}

struct Edge {
    from: u32,
    weight: i64,
    kind: Kind,
}

#[derive(Clone, Copy, PartialEq, Eq)]
enum State {
    New,
    Open,
    Done,
}

struct Graph {
    /// For each point the edges into it.
    into: Vec<Vec<Edge>>,
    /// Whether a negative edge goes into a point.
    negative: Vec<bool>,
    states: Vec<State>,
}

impl Graph {
    fn of(plan: &Plan) -> Graph {
        let points = plan.points.len() + plan.links.len();
        let mut graph = Graph {
            into: (0..points).map(|_| vec![]).collect(),
            negative: vec![false; points],
            states: vec![State::New; points],
        };
        for bound in &plan.bounds {
            graph.add(bound.from, bound.to, bound.most, Kind::Ordinary);
        }
        for (number, link) in plan.links.iter().enumerate() {
            let middle = (plan.points.len() + number) as u32;
            let number = number as u32;
            graph.add(link.activation, middle, link.low, Kind::Ordinary);
            graph.add(middle, link.activation, -link.low, Kind::Ordinary);
            graph.add(middle, link.point, 0, Kind::Lower(number));
            graph.add(link.point, middle, link.low - link.high, Kind::Upper(number));
        }
        graph
    }

    fn add(&mut self, from: u32, to: u32, weight: i64, kind: Kind) {
        self.negative[to as usize] |= weight < 0;
        self.into[to as usize].push(Edge { from, weight, kind });
    }

    /// Propagates backward from a point; false if it came to a negative cycle.
    fn propagate(&mut self, source: u32) -> bool {
        match self.states[source as usize] {
            State::Done => return true,
            State::Open => return false,
            State::New => self.states[source as usize] = State::Open,
        }
        let mut distances = vec![ABSENT; self.into.len()];
        let mut queue = BinaryHeap::new();
        let mut upper = None;
        for edge in &self.into[source as usize] {
            if let Kind::Upper(link) = edge.kind {
                upper = Some(link);
            }
            if edge.weight < 0 {
                lower(&mut distances, &mut queue, edge.from, edge.weight);
            }
        }
        while let Some(Reverse((distance, point))) = queue.pop() {
            if distances[point as usize] != distance {
                continue;
            }
            if distance >= 0 {
                self.into[source as usize].push(Edge {
                    from: point,
                    weight: distance,
                    kind: Kind::Ordinary,
                });
                continue;
            }
            if self.negative[point as usize] && !self.propagate(point) {
                return false;
            }
            for edge in &self.into[point as usize] {
                let own = matches!(edge.kind, Kind::Lower(link) if upper == Some(link));
                if edge.weight >= 0 && !own {
                    lower(&mut distances, &mut queue, edge.from, distance + edge.weight);
                }
            }
        }
        self.states[source as usize] = State::Done;
        true
    }
}

fn lower(distances: &mut [i64], queue: &mut BinaryHeap<Reverse<(i64, u32)>>, point: u32, distance: i64) {
    if distance < distances[point as usize] {
        distances[point as usize] = distance;
        queue.push(Reverse((distance, point)));
    }
}

/// Whether the network of a plan is dynamically controllable.
pub fn is_controllable(plan: &Plan) -> bool {
    let mut graph = Graph::of(plan);
    (0..graph.into.len()).all(|point| !graph.negative[point] || graph.propagate(point as u32))
}
