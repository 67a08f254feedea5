//! What the crate says of its runs.

use std::thread;

use stnu::{run, Answer, Error, Run, Status};

const PLAN: &[u8] = b"stnu 1\npoint A\npoint C\npoint D\nbound b1 D C 4\nlink A 3 8 C\nend\n";

#[test]
fn statuses_are_those_of_the_program() {
    let answer = |words: &[&str], input: &[u8]| run(words, input).unwrap();
    let of = |status, text: &[u8]| Answer {
        status,
        text: text.to_vec(),
    };
    assert_eq!(answer(&["check"], PLAN), of(Status::Yes, b"controllable\n"));
    assert_eq!(answer(&["chek"], PLAN), of(Status::Words, b"error words\n"));
    assert_eq!(
        answer(&["check"], b"stnu 1\npoint A"),
        of(Status::Format, b"error format 3 no-end\n")
    );
    assert_eq!(answer(&["run"], &[PLAN, b"at 9 C\n"].concat()).status, Status::Event);
}

#[test]
fn a_run_goes_on_in_another_thread() {
    let mut day = Run::open(&["run"]).unwrap();
    assert_eq!(day.feed(PLAN), Status::Running);
    let mut day = thread::spawn(move || {
        assert_eq!(day.feed(b"at 0\n"), Status::Running);
        day
    })
    .join()
    .unwrap();
    assert_eq!(day.answer(), b"act 0 A\ndue 4\n");
    assert_eq!(day.feed(b"at 5 C\ndone\n"), Status::Yes);
    assert_eq!(day.answer(), b"act 4 D\ndue none\ncomplete\n");
    assert_eq!((day.feed(b"at 9\n"), day.answer()), (Status::Yes, &b""[..]));
}

#[test]
fn a_run_that_is_stopped_ends() {
    let mut session = Run::open(&["session"]).unwrap();
    assert_eq!(session.feed(PLAN), Status::Running);
    let stopper = session.stopper();
    thread::spawn(move || stopper.stop()).join().unwrap();
    assert_eq!(session.feed(b"add point E\nverdict\nproof\n"), Status::Memory);
    drop(session);
    stopper.stop();
}

#[test]
fn a_word_with_a_zero_byte_is_refused() {
    assert_eq!(Run::open(&["check\0"]).map(|_| ()), Err(Error::ZeroInWord));
}
