//! ChaCha20's block in plain Rust: one quarter round after the other, on sixteen words.

type State = [u32; 16];

/// The block of a key at a counter.
pub fn block_of(key: [u8; 32], counter: u32, nonce: [u8; 12]) -> [u8; 64] {
    let start = initial_state(key, counter, nonce);
    serialized(added(twenty_rounds(start), start))
}

/// The same through slices, as the linked function has it; not inlined, as that cannot be.
#[inline(never)]
#[allow(dead_code)]
pub fn block(key: &[u8], counter: u32, nonce: &[u8], out: &mut [u8]) -> bool {
    let Ok(key) = <[u8; 32]>::try_from(key) else {
        return false;
    };
    let Ok(nonce) = <[u8; 12]>::try_from(nonce) else {
        return false;
    };
    if out.len() != 64 {
        return false;
    }
    out.copy_from_slice(&block_of(key, counter, nonce));
    true
}

fn initial_state(key: [u8; 32], counter: u32, nonce: [u8; 12]) -> State {
    [
        0x61707865,
        0x3320646e,
        0x79622d32,
        0x6b206574,
        word(&key, 0),
        word(&key, 1),
        word(&key, 2),
        word(&key, 3),
        word(&key, 4),
        word(&key, 5),
        word(&key, 6),
        word(&key, 7),
        counter,
        word(&nonce, 0),
        word(&nonce, 1),
        word(&nonce, 2),
    ]
}

fn word(bytes: &[u8], k: usize) -> u32 {
    u32::from_le_bytes([
        bytes[4 * k],
        bytes[4 * k + 1],
        bytes[4 * k + 2],
        bytes[4 * k + 3],
    ])
}

fn twenty_rounds(mut s: State) -> State {
    for _ in 0..10 {
        column_round(&mut s);
        diagonal_round(&mut s);
    }
    s
}

fn column_round(s: &mut State) {
    quarter_round(s, 0, 4, 8, 12);
    quarter_round(s, 1, 5, 9, 13);
    quarter_round(s, 2, 6, 10, 14);
    quarter_round(s, 3, 7, 11, 15);
}

fn diagonal_round(s: &mut State) {
    quarter_round(s, 0, 5, 10, 15);
    quarter_round(s, 1, 6, 11, 12);
    quarter_round(s, 2, 7, 8, 13);
    quarter_round(s, 3, 4, 9, 14);
}

fn quarter_round(s: &mut State, x: usize, y: usize, z: usize, w: usize) {
    (s[x], s[y], s[z], s[w]) = quarter(s[x], s[y], s[z], s[w]);
}

fn quarter(a: u32, b: u32, c: u32, d: u32) -> (u32, u32, u32, u32) {
    let a = a.wrapping_add(b);
    let d = (d ^ a).rotate_left(16);
    let c = c.wrapping_add(d);
    let b = (b ^ c).rotate_left(12);
    let a = a.wrapping_add(b);
    let d = (d ^ a).rotate_left(8);
    let c = c.wrapping_add(d);
    let b = (b ^ c).rotate_left(7);
    (a, b, c, d)
}

fn added(mut s: State, t: State) -> State {
    for (i, word) in t.iter().enumerate() {
        s[i] = s[i].wrapping_add(*word);
    }
    s
}

fn serialized(s: State) -> [u8; 64] {
    let mut bytes = [0; 64];
    for (i, word) in s.iter().enumerate() {
        bytes[4 * i..4 * i + 4].copy_from_slice(&word.to_le_bytes());
    }
    bytes
}
