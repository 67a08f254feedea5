//! The workbench for simple temporal networks with uncertainty, in this process.
//!
//! A [`Run`] is what the program `stnu` does with the same words and the same input. It answers each whole line before it
//! takes more, so what [`Run::feed`] gives is the whole answer to the lines that were fed.
//!
//! ```
//! let plan = b"stnu 1\npoint A\npoint C\nlink A 3 8 C\nend\n";
//! let answer = stnu::run(&["check"], plan)?;
//! assert_eq!(answer.status, stnu::Status::Yes);
//! assert_eq!(answer.text, b"controllable\n");
//! # Ok::<(), stnu::Error>(())
//! ```

use std::ffi::{c_char, c_int, CStr, CString};
use std::fmt;

extern "C" {
    fn stnu_version() -> *const c_char;
    fn stnu_made() -> *const c_char;
    fn stnu_open(words: *const *const c_char) -> u64;
    fn stnu_feed(run: u64, bytes: *const u8, size: usize) -> c_int;
    fn stnu_end(run: u64) -> c_int;
    fn stnu_answer(run: u64, size: *mut usize) -> *const u8;
    fn stnu_stop(run: u64) -> c_int;
    fn stnu_close(run: u64) -> c_int;
}

/// How a run stands: it goes on, or has ended so.
#[derive(Debug, Clone, Copy, PartialEq, Eq)]
pub enum Status {
    /// More lines are wanted.
    Running,
    /// Controllable, accepted, executed to the end, shown.
    Yes,
    /// Not controllable, or a certificate is refused.
    No,
    /// The words are those of no command.
    Words,
    /// A line of the input, or a part of the plan, is at fault.
    Format,
    /// A limit is passed.
    Limit,
    /// Reading failed, which does not happen here.
    Read,
    /// There was no memory to keep the answer.
    Write,
    /// An event is refused, and the execution is over.
    Event,
    /// There was no memory, or the run was stopped.
    Memory,
}

impl Status {
    /// A run that is open, and used by nobody else, has one of these.
    fn of(status: c_int) -> Status {
        match status {
            -1 => Status::Running,
            0 => Status::Yes,
            1 => Status::No,
            2 => Status::Words,
            3 => Status::Format,
            4 => Status::Limit,
            5 => Status::Read,
            6 => Status::Write,
            7 => Status::Event,
            8 => Status::Memory,
            other => unreachable!("a run has the status {other}"),
        }
    }
}

/// Why there is no run.
#[derive(Debug, Clone, Copy, PartialEq, Eq)]
pub enum Error {
    /// There is no memory for it.
    Memory,
    /// A word has a zero byte in it.
    ZeroInWord,
}

impl fmt::Display for Error {
    fn fmt(&self, to: &mut fmt::Formatter<'_>) -> fmt::Result {
        to.write_str(match self {
            Error::Memory => "there is no memory for a run",
            Error::ZeroInWord => "a word has a zero byte in it",
        })
    }
}

impl std::error::Error for Error {}

/// What was answered, and how the run stands then.
#[derive(Debug, Clone, PartialEq, Eq)]
pub struct Answer {
    pub status: Status,
    pub text: Vec<u8>,
}

/// A run, which is closed when it is dropped. It may go on in another thread.
#[derive(Debug)]
pub struct Run(u64);

/// Stops a run from another thread; where that is gone, nothing is done.
#[derive(Debug, Clone, Copy)]
pub struct Stopper(u64);

impl Stopper {
    /// Has the run end soon, with [`Status::Memory`].
    pub fn stop(self) {
        // SAFETY: the call takes any number.
        unsafe { stnu_stop(self.0) };
    }
}

impl Run {
    /// Begins a run with these words, those of the program without its name.
    pub fn open(words: &[&str]) -> Result<Run, Error> {
        let words: Result<Vec<CString>, _> = words.iter().map(|it| CString::new(*it)).collect();
        let words = words.map_err(|_| Error::ZeroInWord)?;
        let mut places: Vec<*const c_char> = words.iter().map(|it| it.as_ptr()).collect();
        places.push(std::ptr::null());
        // SAFETY: the words end with zero bytes, their list with a null, and both are copied by the call.
        match unsafe { stnu_open(places.as_ptr()) } {
            0 => Err(Error::Memory),
            number => Ok(Run(number)),
        }
    }

    /// Hands over input, lines whole or not. [`Run::answer`] gives the answer to the whole lines among it.
    pub fn feed(&mut self, bytes: &[u8]) -> Status {
        // SAFETY: so many bytes are there, and are not looked at after the call.
        Status::of(unsafe { stnu_feed(self.0, bytes.as_ptr(), bytes.len()) })
    }

    /// Says that the input ends here.
    pub fn end(&mut self) -> Status {
        // SAFETY: the call takes any number.
        Status::of(unsafe { stnu_end(self.0) })
    }

    /// What was answered to the last `feed` or `end`.
    pub fn answer(&self) -> &[u8] {
        let mut size = 0;
        // SAFETY: the run is open, so the answer is there, and it stays until the next call with `&mut self`.
        unsafe {
            let at = stnu_answer(self.0, &mut size);
            std::slice::from_raw_parts(at, size)
        }
    }

    /// What another thread stops this run with.
    pub fn stopper(&self) -> Stopper {
        Stopper(self.0)
    }
}

impl Drop for Run {
    fn drop(&mut self) {
        // SAFETY: the call takes any number; nothing has the answer any more.
        unsafe { stnu_close(self.0) };
    }
}

/// A run over a whole input.
pub fn run(words: &[&str], input: &[u8]) -> Result<Answer, Error> {
    let mut it = Run::open(words)?;
    let mut status = it.feed(input);
    let mut text = it.answer().to_vec();
    if status == Status::Running {
        status = it.end();
        text.extend_from_slice(it.answer());
    }
    Ok(Answer { status, text })
}

/// The version of the library, and how it was made.
pub fn version() -> (&'static str, &'static str) {
    // SAFETY: both are texts that stay, of ASCII, with a zero byte after them.
    let text = |at| unsafe { CStr::from_ptr(at) }.to_str().unwrap_or_default();
    unsafe { (text(stnu_version()), text(stnu_made())) }
}
