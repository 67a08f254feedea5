//! A plan is decided, its refutation is judged, and a day of another plan is executed: `cargo run --example day`.

use std::error::Error;

use stnu::{run, Run, Status};

const PLAN: &str = "stnu 1\npoint leave\npoint arrive\npoint images\nlink leave 40 90 arrive\n\
                    bound at-the-rock images arrive 0\nbound before-shadow arrive images 15\nend\n";
const BROKEN: &str = "stnu 1\npoint leave\npoint arrive\npoint images\nlink leave 40 90 arrive\n\
                      bound at-the-rock images arrive -5\nbound before-shadow arrive images 3\nend\n";

fn main() -> Result<(), Box<dyn Error>> {
    let refused = run(&["check"], BROKEN.as_bytes())?;
    let certificate = refused
        .text
        .strip_prefix(b"not controllable\n")
        .ok_or("the plan can be kept")?;
    let judged = run(&["judge"], &[BROKEN.as_bytes(), certificate].concat())?;
    print!("judge: {}", String::from_utf8(judged.text)?);

    let mut day = Run::open(&["run"])?;
    let mut status = day.feed(PLAN.as_bytes());
    print!("{}", std::str::from_utf8(day.answer())?);
    for line in ["at 0\n", "at 68 arrive\n", "done\n"] {
        status = day.feed(line.as_bytes());
        print!("> {line}{}", std::str::from_utf8(day.answer())?);
    }
    if status == Status::Yes {
        Ok(())
    } else {
        Err("the day did not come to its end".into())
    }
}
