//! Every input through the program, as many side by side as the machine has cores.

use crate::answer::Answer;
use crate::input;
use crate::program::Program;
use crate::report;
use std::path::{Path, PathBuf};
use std::sync::atomic::{AtomicUsize, Ordering};
use std::sync::Mutex;
use std::thread::{self, Builder};

/// What became of an input; why, on one line, if there is no report of it.
pub type Outcome = Result<Answer, String>;

/// Tells of each input, by its index, as soon as it is over.
pub fn every(program: &Program, inputs: &[PathBuf], tell: impl FnMut(usize, Outcome) + Send) {
    let next = AtomicUsize::new(0);
    let tell = Mutex::new(tell);
    let work = || loop {
        let index = next.fetch_add(1, Ordering::Relaxed);
        let Some(input) = inputs.get(index) else { break };
        let outcome = one(program, input);
        tell.lock().expect("nothing that tells panics")(index, outcome);
    };
    thread::scope(|scope| {
        for _ in 1..cores().min(inputs.len()) {
            // A machine that is full may have no thread for us; this one is there in any case.
            let _ = Builder::new().spawn_scoped(scope, &work);
        }
        work();
    });
}

/// The report's place is looked at before anything is run for it.
fn one(program: &Program, input: &Path) -> Outcome {
    let file = input::open(input)?;
    let report = report::beside(input);
    report::is_free(&report)?;
    let (answer, text) = program.answer(file)?;
    report::keep(&report, &text)?;
    Ok(answer)
}

fn cores() -> usize {
    thread::available_parallelism().map_or(1, usize::from)
}
