//! Plans without faults.

use std::collections::HashMap;

pub struct Bound {
    pub name: String,
    pub from: u32,
    pub to: u32,
    pub most: i64,
}

pub struct Link {
    pub activation: u32,
    pub low: i64,
    pub high: i64,
    pub point: u32,
}

pub struct Plan {
    pub points: Vec<String>,
    pub bounds: Vec<Bound>,
    pub links: Vec<Link>,
    /// For each point the link that ends in it.
    pub ends: Vec<Option<u32>>,
    /// For each point the links that it activates, in order.
    pub begins: Vec<Vec<u32>>,
}

impl Plan {
    /// Reads the text of a plan, which has no faults.
    pub fn read(text: &str) -> Plan {
        let mut plan = Plan {
            points: vec![],
            bounds: vec![],
            links: vec![],
            ends: vec![],
            begins: vec![],
        };
        let mut places: HashMap<String, u32> = HashMap::new();
        for line in text.lines() {
            let words: Vec<&str> = line.split_whitespace().collect();
            match words.as_slice() {
                ["end"] => break,
                ["point", name] => {
                    places.insert(name.to_string(), plan.points.len() as u32);
                    plan.points.push(name.to_string());
                }
                ["bound", name, from, to, most] => plan.bounds.push(Bound {
                    name: name.to_string(),
                    from: places[*from],
                    to: places[*to],
                    most: most.parse().expect("a number"),
                }),
                ["link", activation, low, high, point] => plan.links.push(Link {
                    activation: places[*activation],
                    low: low.parse().expect("a number"),
                    high: high.parse().expect("a number"),
                    point: places[*point],
                }),
                _ => {}
            }
        }
        plan.ends = vec![None; plan.points.len()];
        plan.begins = vec![vec![]; plan.points.len()];
        for (number, link) in plan.links.iter().enumerate() {
            plan.ends[link.point as usize] = Some(number as u32);
            plan.begins[link.activation as usize].push(number as u32);
        }
        plan
    }

    pub fn link(&self, number: u32) -> &Link {
        &self.links[number as usize]
    }
}
