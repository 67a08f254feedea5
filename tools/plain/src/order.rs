//! The order of points along their negative ordinary edges, or the first cycle of these.

use std::cmp::Reverse;
use std::collections::BinaryHeap;

/// An order of the points, and their places in it.
pub struct Order {
    pub points: Vec<u32>,
    pub places: Vec<u32>,
}

/// The order of so many points, the lowest that waits for none first, or the first cycle. `sources` gives those from which a negative
/// ordinary edge goes to a point, `goes` tells whether one goes from a point to another.
pub fn order<I: Iterator<Item = u32>>(
    count: usize,
    sources: impl Fn(u32) -> I,
    goes: impl Fn(u32, u32) -> bool,
) -> Result<Order, Vec<u32>> {
    let mut waits = vec![0usize; count];
    for target in 0..count as u32 {
        for from in sources(target) {
            waits[from as usize] += 1;
        }
    }
    let mut free: BinaryHeap<Reverse<u32>> = (0..count as u32).filter(|&point| waits[point as usize] == 0).map(Reverse).collect();
    let mut points = vec![];
    while let Some(Reverse(point)) = free.pop() {
        points.push(point);
        for from in sources(point) {
            waits[from as usize] -= 1;
            if waits[from as usize] == 0 {
                free.push(Reverse(from));
            }
        }
    }
    if points.len() < count {
        return Err(cycle(count, &points, goes));
    }
    let mut places = vec![0; count];
    for (place, &point) in points.iter().enumerate() {
        places[point as usize] = place as u32;
    }
    Ok(Order { points, places })
}

/// The cycle that is met from the lowest point that is not placed.
fn cycle(count: usize, placed: &[u32], goes: impl Fn(u32, u32) -> bool) -> Vec<u32> {
    let mut is_placed = vec![false; count];
    for &point in placed {
        is_placed[point as usize] = true;
    }
    let left: Vec<u32> = (0..count as u32).filter(|&point| !is_placed[point as usize]).collect();
    let mut path = vec![left[0]];
    loop {
        let last = path[path.len() - 1];
        let next = *left.iter().find(|&&to| goes(last, to)).expect("a point that is not placed goes on");
        if let Some(place) = path.iter().position(|&point| point == next) {
            return path.split_off(place);
        }
        path.push(next);
    }
}
