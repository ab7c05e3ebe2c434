//! Answers `compare` as face/pipe.c does, which says what goes to and fro: the plain program is held to the reference too.

use std::io::{self, BufReader, BufWriter, Read, Write};

/// A case's numbers before the book: its bytes, T, the cells of report, ledger and place, where the rooms would lie, and
/// whether it is a stored report that is to be widened, which is no part of this program.
const HEAD: usize = 7;

fn main() -> io::Result<()> {
    let mut from = BufReader::new(io::stdin());
    let mut to = BufWriter::new(io::stdout());
    while let Some(head) = head(&mut from)? {
        answer(&head, &mut from, &mut to)?;
        to.flush()?;
    }
    Ok(())
}

/// `None` where the cases end.
fn head(from: &mut impl Read) -> io::Result<Option<Vec<i64>>> {
    let mut first = [0];
    if from.read(&mut first)? == 0 {
        return Ok(None);
    }
    cells(&mut (&first[..]).chain(from), HEAD).map(Some)
}

fn answer(head: &[i64], from: &mut impl Read, to: &mut impl Write) -> io::Result<()> {
    if head[6] != 0 {
        return Err(io::Error::other("nothing is widened here"));
    }
    let mut book = vec![0; head[0] as usize];
    from.read_exact(&mut book)?;
    let mut report = cells(from, head[2] as usize)?;
    let mut ledger = cells(from, head[3] as usize)?;
    let mut place = cells(from, head[4] as usize)?;
    let (number, at) = plain::assess(&book, head[1] as u64, &mut report, &mut ledger).err().unwrap_or((0, 0));
    if let Some(cell) = place.first_mut() {
        *cell = at as i64;
    }
    for cell in [vec![i64::from(number)], report, ledger, place].concat() {
        to.write_all(&cell.to_le_bytes())?;
    }
    Ok(())
}

fn cells(from: &mut impl Read, count: usize) -> io::Result<Vec<i64>> {
    let mut bytes = vec![0; 8 * count];
    from.read_exact(&mut bytes)?;
    let cell = |bytes: &[u8]| i64::from_le_bytes(bytes.try_into().expect("eight bytes"));
    Ok(bytes.chunks_exact(8).map(cell).collect())
}
