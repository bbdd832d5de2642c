//! Times `issue` for all receivers of a tree of height 16 beside a plain Rust program that does the same, with the files written, turn by turn in
//! one run. Each run is a process of its own: this program starts the proved `issue`, and itself as the plain one.
//!
//! It is called with the path of `issue` and a directory to work in, which has to have room for 1 GB.

use std::env;
use std::fs;
use std::io;
use std::path::Path;
use std::process::{Command, ExitCode, Stdio};
use std::time::Instant;

#[path = "chacha.rs"]
mod chacha;

const HEIGHT: u32 = 16;
const RECEIVERS: u32 = 1 << HEIGHT;
const ROUNDS: usize = 7;

type Key = [u8; 32];

/// The plain program: reads the starts, and writes each receiver's labels under another name before they get their own.
mod plain {
    use super::*;

    fn sides(label: Key) -> (Key, Key) {
        let block = chacha::block_of(label, 0, [0; 12]);
        let (mut left, mut right) = ([0; 32], [0; 32]);
        left.copy_from_slice(&block[..32]);
        right.copy_from_slice(&block[32..]);
        (left, right)
    }

    fn start(starts: &[u8], node: u32) -> Key {
        let at = 2 + 32 * node as usize;
        starts[at..at + 32].try_into().unwrap()
    }

    fn write_under(start: Key, leaf: u32, steps: u32, out: &mut [u8]) {
        let first = leaf >> steps;
        let mut here = start;
        for left in (0..steps).rev() {
            let node = leaf >> left;
            let (even, odd) = sides(here);
            let (own, beside) = if node % 2 == 0 { (even, odd) } else { (odd, even) };
            let entry = &mut out[40 * left as usize..40 * left as usize + 40];
            entry[..4].copy_from_slice(&first.to_be_bytes());
            entry[4..8].copy_from_slice(&(node ^ 1).to_be_bytes());
            entry[8..].copy_from_slice(&beside);
            here = own;
        }
    }

    fn labels(starts: &[u8], height: u32, receiver: u32, out: &mut Vec<u8>) {
        out.clear();
        out.extend([2, height as u8]);
        out.extend(receiver.to_be_bytes());
        out.extend(start(starts, 0));
        let leaf = (1 << height) + receiver;
        for steps in 1..=height {
            let at = out.len();
            out.resize(at + 40 * steps as usize, 0);
            write_under(start(starts, leaf >> steps), leaf, steps, &mut out[at..]);
        }
    }

    pub fn issue(starts: &Path, dir: &str, receivers: u32) -> io::Result<()> {
        let starts = fs::read(starts)?;
        let height = u32::from(starts[1]);
        let mut out = Vec::new();
        for receiver in 0..receivers {
            labels(&starts, height, receiver, &mut out);
            let path = format!("{dir}/{receiver}.labels");
            let unfinished = format!("{path}.unfinished");
            fs::write(&unfinished, &out)?;
            fs::rename(&unfinished, &path)?;
        }
        Ok(())
    }
}

fn write_starts(path: &Path) -> io::Result<()> {
    let mut bytes = vec![4, HEIGHT as u8];
    let mut key = [7; 32];
    for node in 0..2 * RECEIVERS {
        let block = chacha::block_of(key, node, [0; 12]);
        key.copy_from_slice(&block[..32]);
        bytes.extend(&block[32..]);
    }
    fs::write(path, bytes)
}

fn seconds(command: &mut Command) -> io::Result<f64> {
    let begin = Instant::now();
    let status = command.stderr(Stdio::null()).status()?;
    let seconds = begin.elapsed().as_secs_f64();
    if status.success() { Ok(seconds) } else { Err(io::Error::other("a program failed")) }
}

fn same_files(one: &Path, other: &Path) -> io::Result<bool> {
    for receiver in 0..RECEIVERS {
        let name = format!("{receiver}.labels");
        if fs::read(one.join(&name))? != fs::read(other.join(&name))? {
            return Ok(false);
        }
    }
    Ok(true)
}

fn median(mut values: Vec<f64>) -> f64 {
    values.sort_by(f64::total_cmp);
    values[values.len() / 2]
}

fn compare(issue: &str, dir: &Path) -> io::Result<bool> {
    let (starts, by_proved, by_plain) = (dir.join("starts"), dir.join("proved"), dir.join("plain"));
    fs::create_dir_all(&by_proved)?;
    fs::create_dir_all(&by_plain)?;
    write_starts(&starts)?;
    let all = format!("0-{}", RECEIVERS - 1);
    let (mut proved, mut plain, mut ratios) = (Vec::new(), Vec::new(), Vec::new());
    for _ in 0..ROUNDS {
        let first = seconds(Command::new(issue).arg(&starts).arg(&by_proved).arg(&all))?;
        let second = seconds(Command::new(env::current_exe()?).arg("plain").arg(&starts).arg(&by_plain))?;
        proved.push(first);
        plain.push(second);
        ratios.push(first / second);
    }
    if !same_files(&by_proved, &by_plain)? {
        println!("the files differ");
        return Ok(false);
    }
    println!("the same bytes in {RECEIVERS} label files");
    println!("proved: {:.2} s", median(proved));
    println!("Rust: {:.2} s", median(plain));
    println!("median ratio: {:.3}", median(ratios));
    Ok(true)
}

fn main() -> ExitCode {
    let args: Vec<String> = env::args().collect();
    let outcome = match &args[..] {
        [_, plain, starts, dir] if plain == "plain" => plain::issue(Path::new(starts), dir, RECEIVERS).map(|_| true),
        [_, issue, dir] => compare(issue, Path::new(dir)),
        _ => Err(io::Error::other("usage: issue ISSUE DIR")),
    };
    match outcome {
        Ok(true) => ExitCode::SUCCESS,
        Ok(false) => ExitCode::FAILURE,
        Err(error) => {
            eprintln!("{error}");
            ExitCode::FAILURE
        }
    }
}
