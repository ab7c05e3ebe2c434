//! The C program that calls the C face, driven through a pipe (`face/pipe.c` says what goes to and fro).

use crate::rooms::{Call, Outcome, Rooms};
use crate::widening::Widening;
use std::io::{self, BufReader, BufWriter, Read, Write};
use std::process::{Child, ChildStdin, ChildStdout, Command, Stdio};

pub struct Face {
    command: Vec<String>,
    running: Option<Running>,
}

struct Running {
    child: Child,
    to: BufWriter<ChildStdin>,
    from: BufReader<ChildStdout>,
}

/// What goes to the program: the book, or in its place the bytes of the stored report that is to be widened.
struct Question<'a> {
    book: &'a [u8],
    capital: u64,
    before: &'a Rooms,
    at_front: bool,
    widens: bool,
}

impl Face {
    /// The command may begin with an emulator. A program that cannot be started is an error here, no difference.
    pub fn start(command: &[String]) -> Result<Face, String> {
        Ok(Face { command: command.to_vec(), running: Some(start(command)?) })
    }

    /// Makes the call of `vorlegan_assess`.
    pub fn call(&mut self, call: &Call) -> Result<Outcome, String> {
        let Call { book, capital, before, at_front } = call;
        self.ask(&Question { book, capital: *capital, before, at_front: *at_front, widens: false })
    }

    /// Makes the call of `vorlegan_widen`.
    pub fn widen(&mut self, widening: &Widening) -> Result<Outcome, String> {
        let Widening { stored, before, at_front } = widening;
        let bytes: Vec<u8> = stored.iter().flat_map(|cell| cell.to_le_bytes()).collect();
        self.ask(&Question { book: &bytes, capital: 0, before, at_front: *at_front, widens: true })
    }

    /// A program that dies of the call is an error that says how; the next call starts it afresh.
    fn ask(&mut self, question: &Question) -> Result<Outcome, String> {
        if self.running.is_none() {
            self.running = Some(start(&self.command)?);
        }
        let running = self.running.as_mut().expect("started above");
        running.ask(question).map_err(|error| match self.running.take() {
            Some(running) => format!("the call did not return: {}", running.end(error)),
            None => error.to_string(),
        })
    }
}

fn start(command: &[String]) -> Result<Running, String> {
    let (program, words) = command.split_first().ok_or("no program was named")?;
    let spawned = Command::new(program).args(words).stdin(Stdio::piped()).stdout(Stdio::piped()).spawn();
    let mut child = spawned.map_err(|error| format!("{program}: cannot be started: {error}"))?;
    let to = BufWriter::new(child.stdin.take().expect("asked for"));
    let from = BufReader::new(child.stdout.take().expect("asked for"));
    Ok(Running { child, to, from })
}

impl Running {
    fn ask(&mut self, question: &Question) -> io::Result<Outcome> {
        let Question { book, capital, before, at_front, widens } = question;
        let lengths = [before.report.len(), before.ledger.len(), before.place.len()];
        let [report, ledger, place] = lengths;
        let head = [book.len() as u64, *capital, report as u64, ledger as u64, place as u64];
        self.put(head.into_iter().chain([u64::from(*at_front), u64::from(*widens)]))?;
        self.to.write_all(book)?;
        for room in [&before.report, &before.ledger, &before.place] {
            self.put(room.iter().map(|cell| *cell as u64))?;
        }
        self.to.flush()?;
        let number = self.get(1)?[0] as u64;
        let rooms = Rooms { report: self.get(report)?, ledger: self.get(ledger)?, place: self.get(place)? };
        Ok(Outcome { number, rooms })
    }

    fn put(&mut self, numbers: impl Iterator<Item = u64>) -> io::Result<()> {
        let bytes: Vec<u8> = numbers.flat_map(u64::to_le_bytes).collect();
        self.to.write_all(&bytes)
    }

    fn get(&mut self, numbers: usize) -> io::Result<Vec<i64>> {
        let mut bytes = vec![0; 8 * numbers];
        self.from.read_exact(&mut bytes)?;
        let number = |bytes: &[u8]| i64::from_le_bytes(bytes.try_into().expect("eight bytes"));
        Ok(bytes.chunks_exact(8).map(number).collect())
    }

    /// How the program ended. Its pipes are closed first, so that it ends if it has not.
    fn end(self, error: io::Error) -> String {
        let Running { mut child, to, from } = self;
        // What is still buffered is of no use to a program that is gone.
        drop(to.into_parts());
        drop(from);
        match child.wait() {
            Ok(status) => status.to_string(),
            Err(_) => error.to_string(),
        }
    }
}
