//! Plain programs of the same definitions as the workbench's engine, to measure it with. No promise of theirs is proved.
//!
//!     plain WAY [--nodes] < PLAN
//!     cat PLAN CERTIFICATE | plain judge [--delay N]
//!
//! WAY is how the verdict is sought: `told` makes rounds whose rows are told which ordinary edges fell in the last round; `blocks` makes
//! the same rounds over dense words, a block of which is tested at once; `stale` makes, after the first round, the rows whose targets are
//! stale, each from the start; `letter` makes every row of every round, and looks through all keys for the least; `closing` closes one
//! table without rounds; `forward` makes a forward closed table, and `morris` is the algorithm of Morris 2014. Prints what `check` prints of
//! a plan without faults, of the last three ways without a refutation. On standard error stand the rounds and the nodes; with --nodes a line
//! for each node, in order of making, comes first.
//!
//! `judge` makes all tests that docs/FORMAT.md tells of a plan text and of a certificate, and prints what `stnu judge` prints, with its
//! status, refusals and faults too. It takes neither `--json` nor `--strong`.

mod blocks;
mod closing;
mod forward;
mod judge;
mod morris;
mod order;
mod plan;
mod refuting;
mod rounds;
mod rows;
mod table;

use blocks::Blocks;
use plan::Plan;
use rounds::{Node, Outcome, Rounds};
use std::io::{self, Read, Write};
use std::process::ExitCode;

/// How the verdict is sought.
#[derive(Clone, Copy)]
enum Way {
    Rounds(rounds::Way),
    Blocks,
    Alone(fn(&Plan) -> bool),
}

fn way_of(word: &str) -> Option<Way> {
    match word {
        "told" => Some(Way::Rounds(rounds::Way::Told)),
        "stale" => Some(Way::Rounds(rounds::Way::Stale)),
        "letter" => Some(Way::Rounds(rounds::Way::Letter)),
        "blocks" => Some(Way::Blocks),
        "closing" => Some(Way::Alone(|plan| closing::close(plan).is_some())),
        "forward" => Some(Way::Alone(forward::is_controllable)),
        "morris" => Some(Way::Alone(morris::is_controllable)),
        _ => None,
    }
}

/// Prints the verdict that rounds have come to, with the nodes that they made.
fn tell(plan: &Plan, outcome: Outcome, nodes: &[Node], node_of: impl Fn(u32, u32) -> u32, shows_nodes: bool) -> io::Result<()> {
    let mut out = io::BufWriter::new(io::stdout().lock());
    if shows_nodes {
        for node in nodes {
            writeln!(out, "{}", refuting::told(plan, node))?;
        }
    }
    let (made, lines) = match outcome {
        Outcome::Closed { rounds: made, .. } => (made, vec!["controllable".to_string()]),
        Outcome::Looped { rounds: made, cycle } => (made, refuting::refutation(plan, nodes, &cycle, node_of)),
    };
    for line in lines {
        writeln!(out, "{line}")?;
    }
    out.flush()?;
    eprintln!("rounds {made} nodes {}", nodes.len());
    Ok(())
}

fn by_rounds(plan: &Plan, way: rounds::Way, shows_nodes: bool) -> io::Result<()> {
    let mut rounds = Rounds::new(plan);
    let outcome = rounds.propagate(way);
    tell(plan, outcome, rounds.nodes(), |from, to| rounds.node_of(from, to), shows_nodes)
}

fn by_blocks(plan: &Plan, shows_nodes: bool) -> io::Result<()> {
    let mut rounds = Blocks::new(plan);
    let outcome = rounds.propagate();
    tell(plan, outcome, rounds.nodes(), |from, to| rounds.node_of(from, to), shows_nodes)
}

/// Prints the verdict alone.
fn alone(plan: &Plan, is_controllable: fn(&Plan) -> bool) -> io::Result<()> {
    let verdict = if is_controllable(plan) {
        "controllable"
    } else {
        "not controllable"
    };
    writeln!(io::stdout().lock(), "{verdict}")
}

/// Judges the plan and the certificate of the input, and prints the answer.
fn judged(delay: Option<i64>) -> ExitCode {
    let input = io::BufReader::with_capacity(1 << 16, io::stdin().lock());
    let (answer, status) = match judge::judge(input, delay) {
        Ok(accepted) => (accepted.to_string(), 0),
        Err(stop) => (stop.to_string(), stop.status()),
    };
    match writeln!(io::stdout().lock(), "{answer}") {
        Ok(()) => ExitCode::from(status),
        Err(_) => ExitCode::from(6),
    }
}

/// The delay of a call of `judge`, from the words after it: `Some(None)` if it has none, and `None` if the words are no call.
fn delay(words: &[String]) -> Option<Option<i64>> {
    let number = match words {
        [] => return Some(None),
        [word] => word.strip_prefix("--delay=")?,
        [word, number] if word == "--delay" => number,
        _ => return None,
    };
    Some(Some(judge::delay(number)?))
}

fn main() -> ExitCode {
    let words: Vec<String> = std::env::args().skip(1).collect();
    if let Some(delay) = words
        .split_first()
        .filter(|(way, _)| *way == "judge")
        .and_then(|(_, rest)| delay(rest))
    {
        return judged(delay);
    }
    let way = words.first().and_then(|word| way_of(word));
    let (Some(way), Some(shows_nodes)) = (way, shows_nodes(&words)) else {
        eprintln!("usage: plain told|blocks|stale|letter|closing|forward|morris [--nodes] < PLAN, or plain judge [--delay N]");
        return ExitCode::from(2);
    };
    let mut text = String::new();
    if let Err(fault) = io::stdin().read_to_string(&mut text) {
        eprintln!("plain: {fault}");
        return ExitCode::from(5);
    }
    let plan = Plan::read(&text);
    let done = match way {
        Way::Rounds(way) => by_rounds(&plan, way, shows_nodes),
        Way::Blocks => by_blocks(&plan, shows_nodes),
        Way::Alone(is_controllable) => alone(&plan, is_controllable),
    };
    match done {
        Ok(()) => ExitCode::SUCCESS,
        Err(_) => ExitCode::from(6),
    }
}

fn shows_nodes(words: &[String]) -> Option<bool> {
    match words.get(1..)? {
        [] => Some(false),
        [word] if word == "--nodes" => Some(true),
        _ => None,
    }
}
