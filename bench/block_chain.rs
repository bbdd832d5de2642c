//! Times a chain of ChaCha20 blocks, in which the first 32 bytes of each block are the next key: by the proved
//! function of `crates/chacha`, linked as a static library, and by plain Rust, turn by turn in one run.

use std::hint::black_box;
use std::process::ExitCode;
use std::time::Instant;

#[path = "chacha.rs"]
mod rust;

mod proved {
    #[link(name = "chacha", kind = "static")]
    unsafe extern "C" {
        fn zozhimbe_block(
            key: *const u8,
            key_len: usize,
            counter: u32,
            nonce: *const u8,
            nonce_len: usize,
            out: *mut u8,
            out_len: usize,
        ) -> bool;
    }

    pub fn block(key: &[u8], counter: u32, nonce: &[u8], out: &mut [u8]) -> bool {
        // SAFETY: each pointer goes with the length of the slice that it comes from, and the function takes any lengths.
        unsafe {
            zozhimbe_block(
                key.as_ptr(),
                key.len(),
                counter,
                nonce.as_ptr(),
                nonce.len(),
                out.as_mut_ptr(),
                out.len(),
            )
        }
    }
}

/// Writes the block of a key, a counter and a nonce, or refuses a wrong length.
type Block = fn(&[u8], u32, &[u8], &mut [u8]) -> bool;

const ROUNDS: u8 = 101;
const BLOCKS_A_ROUND: u32 = 20_000;
const CHECKED_BLOCKS: u32 = 100_000;

/// Whether both answer the same and leave the same in `out`.
fn same(key: &[u8], counter: u32, nonce: &[u8], out: &mut [u8]) -> bool {
    let mut other = out.to_vec();
    let accepted = proved::block(key, counter, nonce, out);
    accepted == rust::block(key, counter, nonce, &mut other) && other == out
}

/// Whether both agree on a chain of keys and nonces, at counters all over their range, and on wrong lengths.
fn agree() -> bool {
    let mut out = [0; 64];
    for i in 0..CHECKED_BLOCKS {
        let last = out;
        let counter = i.wrapping_mul(0x9e37_79b9);
        if !same(&last[..32], counter, &last[32..44], &mut out) || out == last {
            return false;
        }
    }
    same(&[0; 31], 0, &[0; 12], &mut out)
        && same(&[0; 32], 0, &[0; 13], &mut out)
        && same(&[0; 32], 0, &[0; 12], &mut [0; 65])
}

/// The last block of a chain that starts at `key`.
fn chain(block: Block, mut key: [u8; 32]) -> [u8; 64] {
    let mut out = [0; 64];
    for counter in 0..BLOCKS_A_ROUND {
        block(&key, counter, &[0; 12], &mut out);
        key.copy_from_slice(&out[..32]);
    }
    out
}

fn nanoseconds_a_block(block: Block, key: [u8; 32]) -> f64 {
    let begin = Instant::now();
    black_box(chain(block, black_box(key)));
    begin.elapsed().as_secs_f64() * 1e9 / f64::from(BLOCKS_A_ROUND)
}

fn median(mut values: Vec<f64>) -> f64 {
    values.sort_by(f64::total_cmp);
    values[values.len() / 2]
}

fn main() -> ExitCode {
    if !agree() {
        println!("the proved block and the block in Rust differ");
        return ExitCode::FAILURE;
    }
    println!("the same bytes in {CHECKED_BLOCKS} blocks");
    let (mut proved, mut rust, mut ratios) = (Vec::new(), Vec::new(), Vec::new());
    for round in 0..ROUNDS {
        let by_proved = nanoseconds_a_block(proved::block, [round; 32]);
        let by_rust = nanoseconds_a_block(rust::block, [round; 32]);
        proved.push(by_proved);
        rust.push(by_rust);
        ratios.push(by_proved / by_rust);
    }
    println!("proved: {:.1} ns a block", median(proved));
    println!("Rust: {:.1} ns a block", median(rust));
    println!("median ratio: {:.3}", median(ratios));
    ExitCode::SUCCESS
}
