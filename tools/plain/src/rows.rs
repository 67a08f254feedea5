//! The row of a target against a table.

use crate::plan::Plan;
use crate::table::{Entry, Key, Table};
use std::cmp::Reverse;
use std::collections::BinaryHeap;

/// Why an edge of a row fell, by its premises. A first premise is named by its node, a premise of the row by its key.
#[derive(Clone, Copy, Debug)]
pub enum Why {
    No(u32, Key),
    Up(u32, Key),
    Low(u32, Key),
    Cross(u32, Key),
    Drop(Key),
}

/// An edge that fell in a row.
#[derive(Clone, Copy, Debug)]
pub struct Made {
    pub key: Key,
    pub weight: i32,
    pub why: Why,
}

/// The weight of a key in the row under work, and whether it is settled.
#[derive(Clone, Copy)]
struct Slot {
    weight: i32,
    /// The number of the row by which it was written; of any other row the key is absent.
    row: u32,
    why: Option<Why>,
    settled: bool,
}

const ABSENT: Slot = Slot {
    weight: i32::MAX,
    row: 0,
    why: None,
    settled: false,
};

/// The slots of rows that are made one after another, written anew by each.
pub struct Slots {
    slots: Vec<Slot>,
    row: u32,
}

impl Slots {
    pub fn new() -> Slots {
        Slots { slots: vec![], row: 0 }
    }

    /// Begins a row of so many keys.
    fn begin(&mut self, keys: usize) {
        self.row += 1;
        if self.slots.len() < keys {
            self.slots.resize(keys, ABSENT);
        }
    }

    fn slot(&self, place: usize) -> Slot {
        let slot = self.slots[place];
        if slot.row == self.row {
            slot
        } else {
            ABSENT
        }
    }

    fn put(&mut self, place: usize, weight: i32, why: Option<Why>) {
        self.slots[place] = Slot {
            weight,
            row: self.row,
            why,
            settled: false,
        };
    }
}

/// The keys of a row by their places: for each source first its ordinary key, then those of the labels that the target activates.
struct Keys<'a> {
    labels: &'a [u32],
    width: usize,
}

impl Keys<'_> {
    fn place(&self, key: Key) -> usize {
        let column = match key.label {
            None => 0,
            Some(label) => 1 + self.labels.binary_search(&label).expect("a label of the target"),
        };
        key.from as usize * self.width + column
    }

    fn key(&self, place: usize) -> Key {
        let column = place % self.width;
        Key {
            from: (place / self.width) as u32,
            label: column.checked_sub(1).map(|number| self.labels[number]),
        }
    }
}

struct Row<'a> {
    plan: &'a Plan,
    table: &'a Table,
    keys: Keys<'a>,
    slots: &'a mut Slots,
    queue: BinaryHeap<Reverse<(i32, usize)>>,
}

/// Which first premises a key that did not fall in its row yet is tried with.
pub enum Fresh<'a> {
    /// All of the table.
    All,
    /// Those that fell in the last round: for each point the edges into it.
    Fell(&'a [Vec<Entry>]),
}

/// The edges that fall in the row of a target, in the order of settling.
pub fn row(plan: &Plan, table: &Table, target: u32, fresh: &Fresh, slots: &mut Slots) -> Vec<Made> {
    let mut row = Row::new(plan, table, target, slots);
    for entry in table.row(target) {
        let begins = match fresh {
            Fresh::All => true,
            Fresh::Fell(fell) => entry.weight < 0 && row.improves(entry, &fell[entry.key.from as usize]),
        };
        if begins {
            row.queue.push(Reverse((entry.weight, row.keys.place(entry.key))));
        }
    }
    row.settle(fresh)
}

impl<'a> Row<'a> {
    fn new(plan: &'a Plan, table: &'a Table, target: u32, slots: &'a mut Slots) -> Row<'a> {
        let labels = &plan.begins[target as usize];
        let keys = Keys {
            labels,
            width: labels.len() + 1,
        };
        slots.begin(table.points() * keys.width);
        for entry in table.row(target) {
            slots.put(keys.place(entry.key), entry.weight, None);
        }
        Row {
            plan,
            table,
            keys,
            slots,
            queue: BinaryHeap::new(),
        }
    }

    /// Whether a negative key with one of these first premises gives an edge that the table does not meet.
    fn improves(&self, entry: &Entry, firsts: &[Entry]) -> bool {
        let column = self.keys.place(entry.key) % self.keys.width;
        firsts.iter().any(|first| {
            let place = first.key.from as usize * self.keys.width + column;
            first.weight.max(0) + entry.weight < self.slots.slot(place).weight
        })
    }
}

impl Row<'_> {
    fn settle(mut self, fresh: &Fresh) -> Vec<Made> {
        let mut made = vec![];
        while let Some(Reverse((weight, place))) = self.queue.pop() {
            let slot = self.slots.slot(place);
            if slot.settled {
                continue;
            }
            self.slots.slots[place].settled = true;
            let key = self.keys.key(place);
            match (slot.why, fresh) {
                (Some(why), _) => {
                    made.push(Made { key, weight, why });
                    self.offer_all(key, weight);
                }
                (None, Fresh::All) => self.offer_all(key, weight),
                (None, Fresh::Fell(fell)) => self.offer_after(key, weight, &fell[key.from as usize]),
            }
        }
        made
    }

    fn offer(&mut self, place: usize, weight: i32, why: Why) {
        if weight < self.slots.slot(place).weight {
            self.slots.put(place, weight, Some(why));
            self.queue.push(Reverse((weight, place)));
        }
    }

    /// Offers what follows from a key with all of the table.
    fn offer_all(&mut self, key: Key, weight: i32) {
        if let Some(label) = key.label {
            let place = self.keys.place(Key {
                from: key.from,
                label: None,
            });
            self.offer(place, weight.max(-(self.plan.link(label).low as i32)), Why::Drop(key));
        }
        if weight >= 0 {
            return;
        }
        if let Some(own) = self.plan.ends[key.from as usize].filter(|own| key.label != Some(*own)) {
            let link = self.plan.link(own);
            let place = self.keys.place(Key {
                from: link.activation,
                label: key.label,
            });
            let why = if key.label.is_none() {
                Why::Low(own, key)
            } else {
                Why::Cross(own, key)
            };
            self.offer(place, link.low as i32 + weight, why);
        }
        let table = self.table;
        self.offer_after(key, weight, table.row(key.from));
    }

    /// Offers what follows from a negative key with these first premises.
    fn offer_after(&mut self, key: Key, weight: i32, firsts: &[Entry]) {
        let column = self.keys.place(key) % self.keys.width;
        for first in firsts.iter().filter(|first| first.key.label.is_none()) {
            let place = first.key.from as usize * self.keys.width + column;
            let why = if key.label.is_none() {
                Why::No(first.node, key)
            } else {
                Why::Up(first.node, key)
            };
            self.offer(place, first.weight.max(0) + weight, why);
        }
    }
}

/// The same edges, by looking through all keys for the least, again and again.
pub fn row_by_letter(plan: &Plan, table: &Table, target: u32, slots: &mut Slots) -> Vec<Made> {
    let mut row = Row::new(plan, table, target, slots);
    let mut made = vec![];
    while let Some(place) = row.least() {
        let slot = row.slots.slot(place);
        row.slots.slots[place].settled = true;
        let key = row.keys.key(place);
        made.extend(slot.why.map(|why| Made {
            key,
            weight: slot.weight,
            why,
        }));
        row.offer_all(key, slot.weight);
        row.queue.clear();
    }
    made
}

impl Row<'_> {
    /// The key of least weight that is not settled, and of several the first.
    fn least(&self) -> Option<usize> {
        let slots = (0..self.table.points() * self.keys.width).map(|place| (place, self.slots.slot(place)));
        let waiting = slots.filter(|(_, slot)| !slot.settled && slot.weight != ABSENT.weight);
        waiting.min_by_key(|(place, slot)| (slot.weight, *place)).map(|(place, _)| place)
    }
}
