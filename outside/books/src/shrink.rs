//! From a book that shows a difference to a small book that still shows it.

use reference::split;

/// A small book for which `fails` still holds; it must hold for the book given. Records are dropped first, then
/// bytes; what is left is set to nil where that changes nothing.
pub fn shrink(book: &[u8], mut fails: impl FnMut(&[u8]) -> bool) -> Vec<u8> {
    let (records, rest) = split(book);
    let mut pieces: Vec<Vec<u8>> = records.into_iter().map(<[u8]>::to_vec).collect();
    pieces.push(rest.to_vec());
    let kept = drop_pieces(pieces, |kept| fails(&kept.concat())).concat();
    let mut bytes = drop_pieces(kept, &mut fails);
    for place in 0..bytes.len() {
        let before = std::mem::take(&mut bytes[place]);
        if before != 0 && !fails(&bytes) {
            bytes[place] = before;
        }
    }
    bytes
}

/// Drops runs of pieces, long runs first, as long as something can go.
fn drop_pieces<T: Clone>(mut pieces: Vec<T>, mut fails: impl FnMut(&[T]) -> bool) -> Vec<T> {
    let mut run = pieces.len().next_power_of_two();
    while run > 0 {
        let mut start = 0;
        let before = pieces.len();
        while start < pieces.len() {
            let end = (start + run).min(pieces.len());
            let without = [&pieces[..start], &pieces[end..]].concat();
            if fails(&without) {
                pieces = without;
            } else {
                start = end;
            }
        }
        // A run of one that went may have made room for others.
        if run > 1 || pieces.len() == before {
            run /= 2;
        }
    }
    pieces
}
