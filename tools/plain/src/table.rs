//! The table of edges: for each target its present keys, in order.

use crate::plan::Plan;

/// A key of the row of a target: a source, and the label of the edge, by the number of its link.
#[derive(Clone, Copy, PartialEq, Eq, PartialOrd, Ord, Debug)]
pub struct Key {
    pub from: u32,
    pub label: Option<u32>,
}

/// An entry: a key, its weight, and the node of that weight.
#[derive(Clone, Copy, Debug)]
pub struct Entry {
    pub key: Key,
    pub weight: i32,
    pub node: u32,
}

pub struct Table {
    rows: Vec<Vec<Entry>>,
    /// For each point, the targets in whose rows it has a negative key, each at least once.
    targets: Vec<Vec<u32>>,
}

impl Table {
    pub fn new(plan: &Plan) -> Table {
        Table {
            rows: vec![vec![]; plan.points.len()],
            targets: vec![vec![]; plan.points.len()],
        }
    }

    pub fn points(&self) -> usize {
        self.rows.len()
    }

    /// The entries of a target, in the order of keys.
    pub fn row(&self, target: u32) -> &[Entry] {
        &self.rows[target as usize]
    }

    /// The targets in whose rows a point has a negative key.
    pub fn targets_of(&self, from: u32) -> &[u32] {
        &self.targets[from as usize]
    }

    pub fn entry(&self, target: u32, key: Key) -> Option<&Entry> {
        let row = self.row(target);
        let place = row.binary_search_by_key(&key, |entry| entry.key).ok()?;
        Some(&row[place])
    }

    /// Takes a node of a key, where the key is absent or its weight greater.
    pub fn lower(&mut self, target: u32, key: Key, weight: i32, node: u32) {
        let row = &mut self.rows[target as usize];
        let was = match row.binary_search_by_key(&key, |entry| entry.key) {
            Ok(place) if row[place].weight <= weight => return,
            Ok(place) => {
                let was = row[place].weight;
                row[place].weight = weight;
                row[place].node = node;
                was
            }
            Err(place) => {
                row.insert(place, Entry { key, weight, node });
                0
            }
        };
        if was >= 0 && weight < 0 {
            self.targets[key.from as usize].push(target);
        }
    }
}
