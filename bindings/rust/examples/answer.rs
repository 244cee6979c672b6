//! The library from Rust, for tests/exports.
//!
//! Without an argument: the reply to each line of standard input, a line each, as the program `intake` writes them.
//! With the argument `calls`: the same for lines of kinds 01, 02, 04, 07, 08 and 09 of the right length, by the calls for the count,
//! the best chain, choosing and placing, the run of a chain and the two for tree words, whose answers are written here as replies.
//! The calls take and tell chains without a and b of the largest part. So these are passed over in a line, and for a reply they are
//! looked up. For a line of kind 02 choosing and placing must tell what the best chain tells.
//! With the argument `limited`: the cheapest chain for lines as those of kind 02, and the count of chains with at most so many parts for
//! lines as those of kind 01 with one byte more, the number of parts. There are no replies to such calls. Written are 00 and the count in
//! 8 bytes, or 00, the number of parts, the part numbers and the price in 4 bytes, or the refusal.
use meltsjuk::{Limits, Prices, Table, Terminal};
use std::io::{self, BufRead, Write};
use std::sync::OnceLock;

/// The value of `bytes` bytes of a line, from byte `at` on.
fn field(line: &[u8], at: usize, bytes: usize) -> u64 {
    let digits = std::str::from_utf8(&line[2 * at..2 * (at + bytes)]).expect("digits");
    u64::from_str_radix(digits, 16).expect("digits")
}

fn reply_by_count(terminal: &mut Terminal, line: &[u8]) -> String {
    format!("00{:016X}", terminal.count(field(line, 1, 8)))
}

/// What a line of kind 02 asks with.
fn asked_in(line: &[u8]) -> (u64, Limits, Prices) {
    let byte = |at| field(line, at, 1) as u8;
    let pair = |at| field(line, at, 2) as u16;
    let limits = Limits { parts: byte(9), doublings: byte(10), triplings: byte(11) };
    let prices = Prices { doubling: pair(12), tripling: pair(14), addition_2: pair(16), addition_3: pair(18) };
    (field(line, 1, 8), limits, prices)
}

fn reply_by_best(terminal: &mut Terminal, line: &[u8]) -> String {
    let (n, limits, prices) = asked_in(line);
    let best = terminal.best(n, limits, prices);
    let chosen = terminal.choose(n, limits, prices);
    let placed = chosen.map(|c| (terminal.place(&c.parts).expect("a chain"), c.parts, c.price));
    assert_eq!(best.as_ref().map(|b| (b.position, b.parts.clone(), b.price)), placed, "choosing and placing tell something else");
    match best {
        None => "05".to_string(),
        Some(best) => format!("00{n:016X}{:016X}{}{:08X}", best.position, record_of(&best.parts), best.price),
    }
}

/// A record by placing: the number that its parts sum to is summed here.
fn reply_by_place(terminal: &mut Terminal, line: &[u8]) -> String {
    let parts = parts_in(line, 1);
    match terminal.place(&parts) {
        Ok(position) => {
            let n: u64 = parts.iter().map(|&number| value_of(number)).sum();
            format!("00{n:016X}{position:016X}{}", record_of(&parts))
        }
        Err(refusal) => format!("{:02X}", refusal as u8),
    }
}

fn value_of(number: u16) -> u64 {
    let (a, b) = exponents()[number as usize];
    3u64.pow(b) << a
}

/// a and b of each part 2^a × 3^b, by part number.
fn exponents() -> &'static [(u32, u32)] {
    static TABLE: OnceLock<Vec<(u32, u32)>> = OnceLock::new();
    TABLE.get_or_init(|| {
        let points = (0..64).flat_map(|a| (0..41).map(move |b| (a, b)));
        let mut parts: Vec<_> = points.map(|(a, b)| (2u128.pow(a) * 3u128.pow(b), (a, b))).collect();
        parts.retain(|part| part.0 < 1 << 64);
        parts.sort();
        parts.into_iter().map(|part| part.1).collect()
    })
}

/// A chain as lines and replies have it: k, a and b of the largest part, the part numbers.
fn record_of(parts: &[u16]) -> String {
    let (a, b) = parts.first().map_or((0, 0), |&number| exponents()[number as usize]);
    format!("{:02X}{a:02X}{b:02X}{}", parts.len(), digits_of(parts))
}

fn digits_of(parts: &[u16]) -> String {
    parts.iter().map(|number| format!("{number:04X}")).collect()
}

/// The part numbers of a line; byte `at` says how many they are, and a and b come between.
fn parts_in(line: &[u8], at: usize) -> Vec<u16> {
    (0..field(line, at, 1) as usize).map(|i| field(line, at + 3 + 2 * i, 2) as u16).collect()
}

fn reply_by_run(line: &[u8]) -> String {
    match meltsjuk::run(&parts_in(line, 17), field(line, 1, 8), field(line, 9, 8)) {
        Ok(residue) => format!("00{residue:016X}"),
        Err(refusal) => format!("{:02X}", refusal as u8),
    }
}

fn reply_by_read_tree(terminal: &mut Terminal, line: &[u8]) -> String {
    let letters: Vec<u8> = (0..field(line, 1, 1) as usize).map(|i| field(line, 2 + i, 1) as u8).collect();
    match terminal.read_tree(&letters) {
        Ok(chain) => format!("00{:016X}{:016X}{}", chain.n, chain.position, record_of(&chain.parts)),
        Err(refusal) => format!("{:02X}", refusal as u8),
    }
}

fn reply_by_write_tree(line: &[u8]) -> String {
    match meltsjuk::write_tree(&parts_in(line, 1)) {
        Ok(letters) => {
            let digits: String = letters.iter().map(|letter| format!("{letter:02X}")).collect();
            format!("00{:02X}{digits}", letters.len())
        }
        Err(refusal) => format!("{:02X}", refusal as u8),
    }
}

fn reply_by_call(terminal: &mut Terminal, line: &[u8]) -> String {
    match (line.len(), &line[..2]) {
        (18, b"01") => reply_by_count(terminal, line),
        (40, b"02") => reply_by_best(terminal, line),
        (8.., b"04") if line.len() == 8 + 4 * field(line, 1, 1) as usize => reply_by_place(terminal, line),
        (40.., b"07") if line.len() == 40 + 4 * field(line, 17, 1) as usize => reply_by_run(line),
        (4.., b"08") if line.len() == 4 + 2 * field(line, 1, 1) as usize => reply_by_read_tree(terminal, line),
        (8.., b"09") if line.len() == 8 + 4 * field(line, 1, 1) as usize => reply_by_write_tree(line),
        _ => panic!("a line that no call serves"),
    }
}

fn tell_cheapest(table: &mut Table, line: &[u8]) -> String {
    let (n, limits, prices) = asked_in(line);
    match table.cheapest(n, limits, prices) {
        None => "05".to_string(),
        Some(chain) => format!("00{:02X}{}{:08X}", chain.parts.len(), digits_of(&chain.parts), chain.price),
    }
}

fn tell_limited(table: &mut Table, line: &[u8]) -> String {
    match (line.len(), &line[..2]) {
        (20, b"01") => format!("00{:016X}", table.count_up_to(field(line, 1, 8), field(line, 9, 1) as u8)),
        (40, b"02") => tell_cheapest(table, line),
        _ => panic!("a line that neither call serves"),
    }
}

fn main() -> io::Result<()> {
    let mode = std::env::args().nth(1).unwrap_or_default();
    let mut terminal = Terminal::new();
    let mut table = Table::new();
    let mut input = io::stdin().lock();
    let mut output = io::BufWriter::new(io::stdout().lock());
    let mut line = Vec::new();
    while input.read_until(b'\n', &mut line)? > 0 {
        if line.last() == Some(&b'\n') {
            line.pop();
        }
        match mode.as_str() {
            "calls" => writeln!(output, "{}", reply_by_call(&mut terminal, &line))?,
            "limited" => writeln!(output, "{}", tell_limited(&mut table, &line))?,
            _ => writeln!(output, "{}", terminal.reply(&line))?,
        }
        line.clear();
    }
    output.flush()
}
