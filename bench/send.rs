//! Times `send` for 4,096 revoked receivers of a tree of height 16 beside a plain Rust program that does the same, turn by turn in one run. Each run
//! is a process of its own: this program starts the proved `send`, and itself as the plain one.
//!
//! It is called with the path of `send` and a directory to work in.

use std::env;
use std::fs;
use std::io;
use std::path::Path;
use std::process::{Command, ExitCode, Stdio};
use std::time::Instant;

#[path = "chacha.rs"]
mod chacha;

const HEIGHT: u32 = 16;
const REVOKED: u32 = 4096;
const NUMBER: u32 = 77;
const ROUNDS: usize = 101;

type Key = [u8; 32];

/// The plain program: the cover by a walk over the nodes where somebody is revoked, and a header for each part.
mod plain {
    use super::*;

    type Part = (u32, u32);

    /// What is known below a node where somebody is revoked: the named node, with the parts written to `out` from `from` on.
    fn work(node: u32, levels: u32, first: u32, revoked: &[u32], side: u32, out: &mut Vec<Part>) -> u32 {
        if levels == 0 {
            close(side, node, out);
            return node;
        }
        let middle = first + (1 << (levels - 1));
        let split = revoked.partition_point(|u| *u < middle);
        let (left, right) = revoked.split_at(split);
        if right.is_empty() {
            return work(2 * node, levels - 1, first, left, side, out);
        }
        if left.is_empty() {
            return work(2 * node + 1, levels - 1, middle, right, side, out);
        }
        close(side, node, out);
        work(2 * node, levels - 1, first, left, 2 * node, out);
        work(2 * node + 1, levels - 1, middle, right, 2 * node + 1, out);
        node
    }

    fn close(side: u32, named: u32, out: &mut Vec<Part>) {
        if side != named {
            out.push((side, named));
        }
    }

    fn cover(height: u32, revoked: &[u32]) -> Vec<Part> {
        let mut parts = Vec::new();
        if revoked.is_empty() {
            parts.push((0, 0));
        } else {
            work(1, height, 0, revoked, 1, &mut parts);
        }
        parts
    }

    fn half(block: [u8; 64], last: bool) -> Key {
        if last { block[32..].try_into().unwrap() } else { block[..32].try_into().unwrap() }
    }

    fn part_key(start: Key, (first, second): Part) -> Key {
        let mut label = start;
        let mut steps = 0;
        while second >> steps > first {
            steps += 1;
        }
        for left in (0..steps).rev() {
            label = half(chacha::block_of(label, 0, [0; 12]), (second >> left) % 2 == 1);
        }
        half(chacha::block_of(label, 1, [0; 12]), false)
    }

    pub fn send(list: &str, number: u32, starts: &str, drawn: &str, out: &str) -> io::Result<()> {
        let list = fs::read(list)?;
        let starts = fs::read(starts)?;
        let session = fs::read(drawn)?;
        let revoked: Vec<u32> = list[6..].chunks(4).map(|b| u32::from_be_bytes(b.try_into().unwrap())).collect();
        let parts = cover(u32::from(list[1]), &revoked);
        let mut bytes = vec![3, list[1]];
        bytes.extend(number.to_be_bytes());
        bytes.extend((parts.len() as u32).to_be_bytes());
        for part in parts {
            let at = 2 + 32 * part.0 as usize;
            let key = part_key(starts[at..at + 32].try_into().unwrap(), part);
            let mut pad = chacha::block_of(key, number + 2, [0; 12]);
            for (byte, add) in pad.iter_mut().zip(&session[..32]) {
                *byte ^= add;
            }
            bytes.extend(part.0.to_be_bytes());
            bytes.extend(part.1.to_be_bytes());
            bytes.extend(&pad[..48]);
        }
        let unfinished = format!("{out}.unfinished");
        fs::write(&unfinished, &bytes)?;
        fs::rename(&unfinished, out)
    }
}

fn write_inputs(dir: &Path) -> io::Result<()> {
    let mut starts = vec![4, HEIGHT as u8];
    let mut key = [7; 32];
    for node in 0..2u32 << HEIGHT {
        let block = chacha::block_of(key, node, [0; 12]);
        key.copy_from_slice(&block[..32]);
        starts.extend(&block[32..]);
    }
    fs::write(dir.join("starts"), starts)?;
    fs::write(dir.join("drawn"), key)?;
    let mut list = vec![1, HEIGHT as u8];
    list.extend(REVOKED.to_be_bytes());
    let each = (1 << HEIGHT) / REVOKED;
    for i in 0..REVOKED {
        let word = u32::from_le_bytes(chacha::block_of(key, i, [0; 12])[..4].try_into().unwrap());
        list.extend((each * i + word % each).to_be_bytes());
    }
    fs::write(dir.join("list"), list)
}

fn seconds(command: &mut Command) -> io::Result<f64> {
    let begin = Instant::now();
    let status = command.stderr(Stdio::null()).status()?;
    let seconds = begin.elapsed().as_secs_f64();
    if status.success() { Ok(seconds) } else { Err(io::Error::other("a program failed")) }
}

fn median(mut values: Vec<f64>) -> f64 {
    values.sort_by(f64::total_cmp);
    values[values.len() / 2]
}

fn compare(send: &str, dir: &Path) -> io::Result<bool> {
    write_inputs(dir)?;
    let (list, starts, drawn) = (dir.join("list"), dir.join("starts"), dir.join("drawn"));
    let (by_proved, by_plain) = (dir.join("proved.sending"), dir.join("plain.sending"));
    let number = NUMBER.to_string();
    let (mut proved, mut plain, mut ratios) = (Vec::new(), Vec::new(), Vec::new());
    for _ in 0..ROUNDS {
        let first = seconds(Command::new(send).arg(&list).arg(&number).arg(&starts).arg(&drawn).arg(&by_proved))?;
        let second = seconds(Command::new(env::current_exe()?).arg("plain").arg(&list).arg(&number).arg(&starts).arg(&drawn).arg(&by_plain))?;
        proved.push(first);
        plain.push(second);
        ratios.push(first / second);
    }
    let sending = fs::read(by_proved)?;
    if sending != fs::read(by_plain)? {
        println!("the sendings differ");
        return Ok(false);
    }
    println!("the same {} bytes", sending.len());
    println!("proved: {:.2} ms", 1e3 * median(proved));
    println!("Rust: {:.2} ms", 1e3 * median(plain));
    println!("median ratio: {:.3}", median(ratios));
    Ok(true)
}

fn main() -> ExitCode {
    let args: Vec<String> = env::args().collect();
    let outcome = match &args[..] {
        [_, plain, list, number, starts, drawn, out] if plain == "plain" => match number.parse() {
            Ok(number) => plain::send(list, number, starts, drawn, out).map(|_| true),
            Err(_) => Err(io::Error::other("not a number")),
        },
        [_, send, dir] => compare(send, Path::new(dir)),
        _ => Err(io::Error::other("usage: send SEND DIR")),
    };
    match outcome {
        Ok(true) => ExitCode::SUCCESS,
        Ok(false) => ExitCode::FAILURE,
        Err(error) => {
            eprintln!("{error}");
            ExitCode::FAILURE
        }
    }
}
