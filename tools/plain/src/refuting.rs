//! What is printed of nodes and refutations.

use crate::plan::Plan;
use crate::rounds::{Node, Rule};

/// A node in one line: its rule with the numbers of its premises, and its edge.
pub fn told(plan: &Plan, node: &Node) -> String {
    line(plan, node, |premise| premise as usize)
}

/// The lines of a refutation by a cycle; `node_of` gives the node of an ordinary edge.
pub fn refutation(plan: &Plan, nodes: &[Node], cycle: &[u32], node_of: impl Fn(u32, u32) -> u32) -> Vec<String> {
    let next = cycle.iter().cycle().skip(1);
    let steps: Vec<u32> = cycle.iter().zip(next).map(|(&from, &to)| node_of(from, to)).collect();
    let is_used = used(nodes, &steps);
    let mut numbers = vec![0usize; nodes.len()];
    let mut lines: Vec<String> = ["not controllable", "certificate 1", "refutation"].map(String::from).to_vec();
    for (place, node) in nodes.iter().enumerate().filter(|(place, _)| is_used[*place]) {
        numbers[place] = lines.len() - 2;
        lines.push(line(plan, node, |premise| numbers[premise as usize]));
    }
    lines.extend(steps.iter().map(|&step| format!("walk {}", numbers[step as usize])));
    lines.push("end".to_string());
    lines
}

/// For each node whether these rest on it, or are it.
fn used(nodes: &[Node], steps: &[u32]) -> Vec<bool> {
    let mut is_used = vec![false; nodes.len()];
    let mut left = steps.to_vec();
    while let Some(node) = left.pop() {
        if !is_used[node as usize] {
            is_used[node as usize] = true;
            left.extend(premises(nodes[node as usize].rule).into_iter().flatten());
        }
    }
    is_used
}

fn premises(rule: Rule) -> [Option<u32>; 2] {
    match rule {
        Rule::Bound(_) | Rule::Link(_) => [None, None],
        Rule::No(first, last) | Rule::Up(first, last) => [Some(first), Some(last)],
        Rule::Low(_, last) | Rule::Cross(_, last) | Rule::Drop(last) => [Some(last), None],
    }
}

fn line(plan: &Plan, node: &Node, number: impl Fn(u32) -> usize) -> String {
    let point = |place: u32| plan.points[place as usize].as_str();
    let end = |link: u32| point(plan.link(link).point);
    let rule = match node.rule {
        Rule::Bound(place) => format!("bound {}", plan.bounds[place as usize].name),
        Rule::Link(link) => format!("link {}", end(link)),
        Rule::No(first, last) => format!("no {} {}", number(first), number(last)),
        Rule::Up(first, last) => format!("up {} {}", number(first), number(last)),
        Rule::Low(link, last) => format!("low {} {}", end(link), number(last)),
        Rule::Cross(link, last) => format!("cross {} {}", end(link), number(last)),
        Rule::Drop(last) => format!("drop {}", number(last)),
    };
    let label = match (node.rule, node.label()) {
        (Rule::Up(..) | Rule::Cross(..), Some(label)) => format!(" {}", end(label)),
        _ => String::new(),
    };
    format!(
        "{rule} {} {}{label} {}",
        point(node.from.into()),
        point(node.to.into()),
        node.weight
    )
}
