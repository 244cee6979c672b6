//! The plain Rust program that answers a file: standard input to standard output, a reply a line.
mod plain;

use std::io::{BufRead, BufWriter, Write};

fn main() {
    let ts = plain::Tables::new();
    let mut scratch = [0u64; plain::SCRATCH];
    let mut out = BufWriter::new(std::io::stdout().lock());
    let mut input = std::io::stdin().lock();
    let mut line = Vec::new();
    loop {
        line.clear();
        if input.read_until(b'\n', &mut line).unwrap() == 0 {
            break;
        }
        if line.last() == Some(&b'\n') {
            line.pop();
        }
        writeln!(out, "{}", plain::reply(&ts, &line, &mut scratch)).unwrap();
    }
}
