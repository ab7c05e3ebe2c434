//! SHA-256 as FIPS 180-4 has it, for std has none. A return is known by it.

const INITIAL: [u32; 8] =
    [0x6a09e667, 0xbb67ae85, 0x3c6ef372, 0xa54ff53a, 0x510e527f, 0x9b05688c, 0x1f83d9ab, 0x5be0cd19];

const ROUNDS: [u32; 64] = [
    0x428a2f98, 0x71374491, 0xb5c0fbcf, 0xe9b5dba5, 0x3956c25b, 0x59f111f1, 0x923f82a4, 0xab1c5ed5, 0xd807aa98,
    0x12835b01, 0x243185be, 0x550c7dc3, 0x72be5d74, 0x80deb1fe, 0x9bdc06a7, 0xc19bf174, 0xe49b69c1, 0xefbe4786,
    0x0fc19dc6, 0x240ca1cc, 0x2de92c6f, 0x4a7484aa, 0x5cb0a9dc, 0x76f988da, 0x983e5152, 0xa831c66d, 0xb00327c8,
    0xbf597fc7, 0xc6e00bf3, 0xd5a79147, 0x06ca6351, 0x14292967, 0x27b70a85, 0x2e1b2138, 0x4d2c6dfc, 0x53380d13,
    0x650a7354, 0x766a0abb, 0x81c2c92e, 0x92722c85, 0xa2bfe8a1, 0xa81a664b, 0xc24b8b70, 0xc76c51a3, 0xd192e819,
    0xd6990624, 0xf40e3585, 0x106aa070, 0x19a4c116, 0x1e376c08, 0x2748774c, 0x34b0bcb5, 0x391c0cb3, 0x4ed8aa4a,
    0x5b9cca4f, 0x682e6ff3, 0x748f82ee, 0x78a5636f, 0x84c87814, 0x8cc70208, 0x90befffa, 0xa4506ceb, 0xbef9a3f7,
    0xc67178f2,
];

const BLOCK: usize = 64;

/// The digest in 64 hexadecimal digits.
pub fn sha256(message: &[u8]) -> String {
    let state = padded(message).chunks_exact(BLOCK).fold(INITIAL, compressed);
    state.iter().map(|word| format!("{word:08x}")).collect()
}

/// The message, a bit, nil bits until 8 bytes of a block are left, and in these how many bits the message has.
fn padded(message: &[u8]) -> Vec<u8> {
    let mut bytes = message.to_vec();
    bytes.push(0x80);
    let blank = (2 * BLOCK - 8 - bytes.len() % BLOCK) % BLOCK;
    bytes.resize(bytes.len() + blank, 0);
    bytes.extend((8 * message.len() as u64).to_be_bytes());
    bytes
}

fn compressed(state: [u32; 8], block: &[u8]) -> [u32; 8] {
    let schedule = schedule(block);
    let turned = schedule.iter().zip(ROUNDS).fold(state, |state, (word, round)| turn(state, word.wrapping_add(round)));
    std::array::from_fn(|index| state[index].wrapping_add(turned[index]))
}

fn schedule(block: &[u8]) -> [u32; 64] {
    let mut words = [0; 64];
    for index in 0..words.len() {
        words[index] = match index {
            0..16 => block[4 * index..][..4].iter().fold(0, |word, byte| word << 8 | u32::from(*byte)),
            _ => {
                let (early, late) = (words[index - 15], words[index - 2]);
                let early = early.rotate_right(7) ^ early.rotate_right(18) ^ early >> 3;
                let late = late.rotate_right(17) ^ late.rotate_right(19) ^ late >> 10;
                early.wrapping_add(late).wrapping_add(words[index - 16]).wrapping_add(words[index - 7])
            }
        };
    }
    words
}

/// One round; the letters are the standard's.
fn turn([a, b, c, d, e, f, g, h]: [u32; 8], word: u32) -> [u32; 8] {
    let choice = (e & f) ^ (!e & g);
    let majority = (a & b) ^ (a & c) ^ (b & c);
    let high = e.rotate_right(6) ^ e.rotate_right(11) ^ e.rotate_right(25);
    let low = a.rotate_right(2) ^ a.rotate_right(13) ^ a.rotate_right(22);
    let first = h.wrapping_add(high).wrapping_add(choice).wrapping_add(word);
    [first.wrapping_add(low).wrapping_add(majority), a, b, c, d.wrapping_add(first), e, f, g]
}
