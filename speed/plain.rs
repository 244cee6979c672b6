//! The same work in plain Rust, as one first writes it: a flat table, a division and an `if` a cell, no proof. What the proved
//! services are measured against. It answers lines as `intake` does, so its replies can be compared too.

pub const COLUMNS: usize = 64;
pub const ROWS: usize = 41;
pub const SCRATCH: usize = COLUMNS * ROWS * 2;
/// A part in a key, and no key: a key is parts × 2^32 + price.
const PART: u64 = 1 << 32;
const NONE: u64 = 1 << 40;
pub type Table = [u64; SCRATCH];

pub struct Tables {
    pub pow3: Vec<u64>,
    pub parts: Vec<u64>,
    pub exponents: Vec<(usize, usize)>,
}

impl Tables {
    pub fn new() -> Tables {
        let pow3: Vec<u64> = (0..ROWS as u32).map(|b| 3u64.pow(b)).collect();
        let mut all = Vec::new();
        for b in 0..ROWS {
            for a in 0..COLUMNS {
                let v = (pow3[b] as u128) << a;
                if v < 1 << 64 {
                    all.push((v as u64, a, b));
                }
            }
        }
        all.sort();
        Tables {
            pow3,
            parts: all.iter().map(|x| x.0).collect(),
            exponents: all.iter().map(|x| (x.1, x.2)).collect(),
        }
    }

    pub fn number(&self, a: usize, b: usize) -> u16 {
        self.parts.binary_search(&(self.pow3[b] << a)).unwrap() as u16
    }

    /// a and b of the largest part 2^a × 3^b of a chain, both 0 for the empty one.
    fn largest(&self, numbers: &[u16]) -> (usize, usize) {
        numbers.first().map_or((0, 0), |&i| self.exponents[i as usize])
    }
}

fn cell(a: usize, b: usize, after_a: usize) -> usize {
    (b * COLUMNS + a) * 2 + after_a
}

/// The columns of a row in which something is left.
pub fn live(row: u64) -> usize {
    COLUMNS - row.leading_zeros() as usize
}

pub fn fill_counts(ts: &Tables, n: u64, t: &mut Table) {
    for b in (0..ROWS).rev() {
        let row = n / ts.pow3[b];
        for a in (0..live(row)).rev() {
            let m = row >> a;
            let i = cell(a, b, 0);
            if m == 1 {
                t[i] = 1;
                t[i + 1] = 1;
                continue;
            }
            let half = t[i + 3];
            let (mut free, mut after_a) = (half, half);
            match m % 3 {
                0 => free += t[i + 128],
                1 => {
                    free += t[i + 128];
                    after_a = free;
                }
                _ => {}
            }
            t[i] = free;
            t[i + 1] = after_a;
        }
    }
}

pub fn count(ts: &Tables, n: u64, t: &mut Table) -> u64 {
    if n == 0 {
        return 1;
    }
    fill_counts(ts, n, t);
    t[0]
}

/// The word at a position below the count; the counts are in the table.
fn word_at(ts: &Tables, n: u64, mut i: u64, t: &Table) -> Vec<u8> {
    let mut word = Vec::new();
    let (mut a, mut b) = (0, 0);
    if n == 0 {
        return word;
    }
    loop {
        let m = (n / ts.pow3[b]) >> a;
        if m == 1 {
            word.push(3);
            return word;
        }
        let half = t[cell(a + 1, b, 1)];
        if i < half {
            word.push((m % 2) as u8);
            a += 1;
        } else {
            i -= half;
            word.push(2 + (m % 3) as u8);
            b += 1;
        }
    }
}

fn rank(ts: &Tables, n: u64, word: &[u8], t: &Table) -> u64 {
    let (mut a, mut b, mut position) = (0, 0, 0);
    for (i, &l) in word.iter().enumerate() {
        if i + 1 == word.len() {
            break;
        }
        if l < 2 {
            a += 1;
        } else {
            if (n / ts.pow3[b]) >> a > 1 {
                position += t[cell(a + 1, b, 1)];
            }
            b += 1;
        }
    }
    position
}

/// The part numbers of a word, largest part first.
fn numbers(ts: &Tables, word: &[u8]) -> Vec<u16> {
    let (mut a, mut b, mut found) = (0, 0, Vec::new());
    for &l in word {
        if l % 2 == 1 {
            found.push(ts.number(a, b));
        }
        if l < 2 {
            a += 1;
        } else {
            b += 1;
        }
    }
    found.reverse();
    found
}

pub struct Chain {
    pub n: u64,
    pub position: u64,
    pub numbers: Vec<u16>,
    pub price: u64,
}

pub fn chain_at(ts: &Tables, n: u64, position: u64, t: &mut Table) -> Result<Chain, u8> {
    if position >= count(ts, n, t) {
        return Err(6);
    }
    let word = word_at(ts, n, position, t);
    Ok(Chain { n, position, numbers: numbers(ts, &word), price: 0 })
}

pub struct Asked {
    pub n: u64,
    pub parts: u64,
    pub a: usize,
    pub b: usize,
    pub d: u64,
    pub t: u64,
    pub s2: u64,
    pub s3: u64,
}

fn fill_keys(ts: &Tables, q: &Asked, t: &mut Table) {
    for b in (0..ROWS).rev() {
        let row = q.n / ts.pow3[b];
        for a in (0..live(row)).rev() {
            let m = row >> a;
            let i = cell(a, b, 0);
            let (mut free, mut after_a) = (NONE, NONE);
            if a <= q.a && b <= q.b {
                if m == 1 {
                    free = PART;
                    after_a = PART;
                } else {
                    if a < q.a {
                        after_a = t[i + 3] + q.d;
                        if m % 2 == 1 {
                            after_a += PART + q.s2;
                        }
                        free = after_a;
                    }
                    if b < q.b {
                        match m % 3 {
                            0 => free = free.min(t[i + 128] + q.t),
                            1 => {
                                let k = t[i + 128] + q.t + PART + q.s3;
                                free = free.min(k);
                                after_a = after_a.min(k);
                            }
                            _ => {}
                        }
                    }
                }
            }
            t[i] = free;
            t[i + 1] = after_a;
        }
    }
}

fn best_word(ts: &Tables, q: &Asked, t: &Table) -> Vec<u8> {
    let mut word = Vec::new();
    let (mut a, mut b, mut f) = (0, 0, 0);
    loop {
        let m = (q.n / ts.pow3[b]) >> a;
        if m == 1 {
            word.push(3);
            return word;
        }
        let here = t[cell(a, b, f)];
        let part = if m % 2 == 1 { PART + q.s2 } else { 0 };
        if a < q.a && t[cell(a + 1, b, 1)] + q.d + part == here {
            word.push((m % 2) as u8);
            a += 1;
            f = 1;
        } else {
            word.push(2 + (m % 3) as u8);
            b += 1;
            f = 0;
        }
    }
}

/// The word of the best chain, and its price.
fn chosen_word(ts: &Tables, q: &Asked, t: &mut Table) -> Result<(Vec<u8>, u64), u8> {
    if q.n == 0 {
        return Ok((Vec::new(), 0));
    }
    fill_keys(ts, q, t);
    let key = t[0];
    if key >= NONE || key >> 32 > q.parts {
        return Err(5);
    }
    Ok((best_word(ts, q, t), key % (1 << 32)))
}

/// Choosing alone: no position is worked out.
pub fn choose(ts: &Tables, q: &Asked, t: &mut Table) -> Result<Chain, u8> {
    let (word, price) = chosen_word(ts, q, t)?;
    Ok(Chain { n: q.n, position: 0, numbers: numbers(ts, &word), price })
}

pub fn best(ts: &Tables, q: &Asked, t: &mut Table) -> Result<Chain, u8> {
    let (word, price) = chosen_word(ts, q, t)?;
    let mut position = 0;
    if !word.is_empty() {
        fill_counts(ts, q.n, t);
        position = rank(ts, q.n, &word, t);
    }
    Ok(Chain { n: q.n, position, numbers: numbers(ts, &word), price })
}

fn good(word: &[u8]) -> bool {
    if word.is_empty() {
        return true;
    }
    word.iter().all(|&l| l <= 3)
        && word[word.len() - 1] == 3
        && !word.windows(2).any(|p| p[0] < 2 && p[1] == 2)
}

fn weight(word: &[u8]) -> Option<u64> {
    let mut v: u64 = 0;
    for &l in word.iter().rev() {
        v = v.checked_mul(if l < 2 { 2 } else { 3 })?.checked_add((l % 2) as u64)?;
    }
    Some(v)
}

fn read_word(ts: &Tables, word: &[u8], t: &mut Table) -> Result<Chain, u8> {
    if !good(word) {
        return Err(7);
    }
    let n = weight(word).ok_or(10)?;
    if n > 0 {
        fill_counts(ts, n, t);
    }
    Ok(Chain { n, position: rank(ts, n, word, t), numbers: numbers(ts, word), price: 0 })
}

/// A chain by its part numbers, with the parts and their sum.
struct Record {
    numbers: Vec<u16>,
    values: Vec<u64>,
    n: u64,
}

fn record(ts: &Tables, numbers: Vec<u16>) -> Result<Record, u8> {
    if numbers.len() > 64 || numbers.iter().any(|&i| i as usize >= ts.parts.len()) {
        return Err(8);
    }
    let values: Vec<u64> = numbers.iter().map(|&i| ts.parts[i as usize]).collect();
    if values.windows(2).any(|p| p[0] <= p[1] || p[0] % p[1] != 0) {
        return Err(9);
    }
    let mut n: u64 = 0;
    for v in &values {
        n = n.checked_add(*v).ok_or(10)?;
    }
    Ok(Record { numbers, values, n })
}

/// The record of a line, from a and b of its largest part on.
fn record_in(ts: &Tables, bytes: &[u8]) -> Result<Record, u8> {
    let numbers = bytes[2..].chunks(2).map(|p| number(p) as u16).collect();
    let r = record(ts, numbers)?;
    if ts.largest(&r.numbers) != (bytes[0] as usize, bytes[1] as usize) {
        return Err(16);
    }
    Ok(r)
}

fn record_word(ts: &Tables, r: &Record) -> Vec<u8> {
    let mut word = Vec::new();
    let (mut a, mut b) = (0, 0);
    for (k, &i) in r.numbers.iter().enumerate().rev() {
        let (pa, pb) = ts.exponents[i as usize];
        let from = word.len();
        word.resize(from + pb - b, 2);
        word.resize(from + pb - b + pa - a, 0);
        if k + 1 < r.numbers.len() {
            word[from] += 1;
        }
        a = pa;
        b = pb;
    }
    if r.n > 0 {
        word.push(3);
    }
    word
}

fn read_record(ts: &Tables, r: Record, t: &mut Table) -> Chain {
    let word = record_word(ts, &r);
    if r.n > 0 {
        fill_counts(ts, r.n, t);
    }
    Chain { n: r.n, position: rank(ts, r.n, &word, t), numbers: r.numbers, price: 0 }
}

fn times_modulo(r: u64, f: u64, m: u64) -> u64 {
    (r as u128 * f as u128 % m as u128) as u64
}

fn plus_modulo(r: u64, x: u64, m: u64) -> u64 {
    ((r as u128 + x as u128) % m as u128) as u64
}

fn check_residue(m: u64, x: u64) -> Result<(), u8> {
    if m == 0 || m > 1 << 63 {
        return Err(13);
    }
    if x >= m {
        return Err(14);
    }
    Ok(())
}

/// A record's chain, run on x modulo m: back along its word, doubling, tripling and adding, each with a remainder of 128 bits.
fn run_chain(ts: &Tables, record: &Record, m: u64, x: u64) -> u64 {
    let mut r = 0;
    for &l in record_word(ts, record).iter().rev() {
        r = times_modulo(r, if l < 2 { 2 } else { 3 }, m);
        if l % 2 == 1 {
            r = plus_modulo(r, x, m);
        }
    }
    r
}

/// A chain for its tree word: the sum of its powers of two, and its other parts, which are all multiples of 3.
struct TreeChain {
    powers: u64,
    others: Vec<u64>,
}

impl TreeChain {
    fn new(chain: &[u64]) -> TreeChain {
        let (powers, others): (Vec<u64>, Vec<u64>) = chain.iter().partition(|p| p.is_power_of_two());
        TreeChain { powers: powers.iter().sum(), others }
    }

    /// The parts, largest first.
    fn chain(&self) -> Vec<u64> {
        let powers = (0..live(self.powers)).rev().map(|a| 1 << a).filter(|p| self.powers & p != 0);
        self.others.iter().copied().chain(powers).collect()
    }

    fn is_multiple_of_3(&self) -> bool {
        self.powers == 0
    }

    fn is_even(&self) -> bool {
        self.powers % 2 == 0 && self.others.iter().all(|p| p % 2 == 0)
    }

    /// What a letter does on the way back from 1: one more in the powers of two, or every part times 2 or 3.
    fn by_letter(&mut self, letter: u8) {
        match letter {
            1 => self.powers += 1,
            2 => {
                self.powers *= 2;
                self.others.iter_mut().for_each(|p| *p *= 2);
            }
            _ => {
                self.others = self.chain();
                self.powers = 0;
                self.others.iter_mut().for_each(|p| *p *= 3);
            }
        }
    }

    /// The same undone, on the way to 1.
    fn undo_letter(&mut self, letter: u8) {
        match letter {
            1 => self.powers -= 1,
            2 => {
                self.powers /= 2;
                self.others.iter_mut().for_each(|p| *p /= 2);
            }
            _ => {
                self.others.iter_mut().for_each(|p| *p /= 3);
                *self = TreeChain::new(&self.others);
            }
        }
    }
}

/// The number of a tree word.
fn tree_number(letters: &[u8]) -> Option<u64> {
    let mut n: u64 = 1;
    for &l in letters.iter().rev() {
        n = if l == 1 { n.checked_add(1)? } else { n.checked_mul(l as u64)? };
    }
    Some(n)
}

/// Whether the six rules of docs/LINES.md, 'Tree words', lead from n to 1 by these letters.
fn follow_rules(mut n: u64, mut letters: &[u8]) -> bool {
    while n > 1 {
        (n, letters) = match (n % 6, letters) {
            (0 | 3, [3, rest @ ..]) => (n / 3, rest),
            (0 | 1, [1, rest @ ..]) => (n - 1, rest),
            (2 | 4, [2, rest @ ..]) => (n / 2, rest),
            (3 | 5, [1, 2, rest @ ..]) => ((n - 1) / 2, rest),
            (4, [1, 3, rest @ ..]) => ((n - 1) / 3, rest),
            _ => return false,
        };
    }
    letters.is_empty()
}

fn read_tree(ts: &Tables, letters: &[u8], t: &mut Table) -> Result<Chain, u8> {
    if letters.iter().any(|&l| l < 1 || l > 3) {
        return Err(15);
    }
    let n = tree_number(letters).ok_or(10)?;
    if !follow_rules(n, letters) {
        return Err(15);
    }
    let mut chain = TreeChain::new(&[1]);
    for &l in letters.iter().rev() {
        chain.by_letter(l);
    }
    let numbers = chain.chain().iter().map(|p| ts.parts.binary_search(p).unwrap() as u16).collect();
    Ok(read_record(ts, record(ts, numbers)?, t))
}

fn write_tree(r: &Record) -> Result<Vec<u8>, u8> {
    let mut n = r.n;
    if n == 0 {
        return Err(15);
    }
    let mut chain = TreeChain::new(&r.values);
    let mut word = Vec::new();
    while n > 1 {
        let (letters, next): (&[u8], u64) = match n % 6 {
            0 | 3 if chain.is_multiple_of_3() => (&[3], n / 3),
            0 | 1 => (&[1], n - 1),
            2 | 4 if chain.is_even() => (&[2], n / 2),
            4 => (&[1, 3], (n - 1) / 3),
            _ => (&[1, 2], (n - 1) / 2),
        };
        for &l in letters {
            chain.undo_letter(l);
            word.push(l);
        }
        n = next;
    }
    Ok(word)
}

fn digits(out: &mut String, v: u64, bytes: usize) {
    out.push_str(&format!("{:0w$X}", v, w = bytes * 2));
}

fn chain_reply(ts: &Tables, c: &Chain, price: bool) -> String {
    let mut out = String::from("00");
    let (a, b) = ts.largest(&c.numbers);
    digits(&mut out, c.n, 8);
    digits(&mut out, c.position, 8);
    digits(&mut out, c.numbers.len() as u64, 1);
    digits(&mut out, a as u64, 1);
    digits(&mut out, b as u64, 1);
    for &i in &c.numbers {
        digits(&mut out, i as u64, 2);
    }
    if price {
        digits(&mut out, c.price, 4);
    }
    out
}

fn single_reply(v: u64) -> String {
    let mut out = String::from("00");
    digits(&mut out, v, 8);
    out
}

fn letters_reply(letters: &[u8]) -> String {
    let mut out = String::from("00");
    digits(&mut out, letters.len() as u64, 1);
    for &l in letters {
        digits(&mut out, l as u64, 1);
    }
    out
}

fn number(bytes: &[u8]) -> u64 {
    bytes.iter().fold(0, |v, &x| v << 8 | x as u64)
}

fn answer(ts: &Tables, line: &[u8], t: &mut Table) -> Result<String, u8> {
    if line.is_empty() || line.len() % 2 == 1 || line.len() > 514 {
        return Err(2);
    }
    let mut values = Vec::new();
    for &c in line {
        values.push(match c {
            b'0'..=b'9' => c - b'0',
            b'A'..=b'F' => c - b'A' + 10,
            b'a'..=b'f' => c - b'a' + 10,
            _ => return Err(3),
        });
    }
    let bytes: Vec<u8> = values.chunks(2).map(|p| p[0] * 16 + p[1]).collect();
    let at = if bytes[0] == 7 { 17 } else { 1 };
    let count_byte = if bytes.len() > at { bytes[at] as usize } else { 0 };
    let length = match bytes[0] {
        1 => 9,
        2 => 20,
        3 => 17,
        4 | 9 => 4 + 2 * count_byte,
        5 | 6 | 8 => 2 + count_byte,
        7 => 20 + 2 * count_byte,
        _ => return Err(4),
    };
    if bytes.len() != length {
        return Err(2);
    }
    let n = if bytes.len() >= 9 { number(&bytes[1..9]) } else { 0 };
    match bytes[0] {
        1 => Ok(single_reply(count(ts, n, t))),
        2 => {
            let q = Asked {
                n,
                parts: bytes[9] as u64,
                a: bytes[10] as usize,
                b: bytes[11] as usize,
                d: number(&bytes[12..14]),
                t: number(&bytes[14..16]),
                s2: number(&bytes[16..18]),
                s3: number(&bytes[18..20]),
            };
            best(ts, &q, t).map(|c| chain_reply(ts, &c, true))
        }
        3 => chain_at(ts, n, number(&bytes[9..17]), t).map(|c| chain_reply(ts, &c, false)),
        4 => record_in(ts, &bytes[2..]).map(|r| chain_reply(ts, &read_record(ts, r, t), false)),
        5 => read_word(ts, &bytes[2..], t).map(|c| chain_reply(ts, &c, false)),
        7 => {
            let x = number(&bytes[9..17]);
            check_residue(n, x)?;
            record_in(ts, &bytes[18..]).map(|r| single_reply(run_chain(ts, &r, n, x)))
        }
        8 => read_tree(ts, &bytes[2..], t).map(|c| chain_reply(ts, &c, false)),
        9 => write_tree(&record_in(ts, &bytes[2..])?).map(|letters| letters_reply(&letters)),
        _ => {
            let c = read_word(ts, &bytes[2..], t)?;
            if c.position + 1 >= count(ts, c.n, t) {
                return Err(11);
            }
            chain_at(ts, c.n, c.position + 1, t).map(|c| chain_reply(ts, &c, false))
        }
    }
}

pub fn reply(ts: &Tables, line: &[u8], t: &mut Table) -> String {
    match answer(ts, line, t) {
        Ok(out) => out,
        Err(r) => format!("{:02X}", r),
    }
}
