// The chains of any 64-bit number, for tests/independent.py: how many there are, their positions, the best, the cheapest. A question a line,
// an answer a line.
//
//     count N                   how many chains N has
//     shares N                  how many chains of N have 0 parts, 1 part, and so on to 64
//     position N WORD           how many words of the list of N come before WORD, or `none` where WORD is not in the list
//     at N POSITION             the word at a position, or `none` where the list is not that long
//     best N K A B D T S2 S3    parts, price and word of the best chain within the limits K, A, B at the prices D, T, S2, S3, or `none`
//     cheapest N A B D T S2 S3  for each number of parts that a chain within A and B has: this number, and price and word of the cheapest
//                               such chain, the first of those with this price; `none` where there is no chain
//     searched N                the numbers below N with fewer than three chains, as NUMBER=COUNT, and `<M=DIGEST` at each multiple M
//                               of 65,536 up to N: a digest of the counts of all numbers below M
//
// `searched` is a plain search: every chain whose parts sum to less than N is built, part by part, and counted at its sum.
//
// The road of the others: a chain is built from its largest part down. What follows a part is a sum of parts, each at most half of the one
// before, thus less than the part. So once a part q is taken, n mod q is left, whatever was taken before: all that is a multiple of q. If
// nothing is left, the chain ends. If r is left, the next part is a proper divisor p of q with p <= r < 2p. So what can follow q depends on q
// and n alone, and the chains of n are the paths of a graph: its points are parts, a path begins at a part p with p <= n < 2p and ends at one
// that divides n. Every answer but that of `searched` is read off this graph.
//
// Words are text and are compared as text. The letters before a part's own point depend on the smaller parts alone, and there are a + b of
// them. The number 0 is answered apart; `-` stands for the empty word.
use std::cmp::Ordering;
use std::io::{self, BufRead, Write};

/// A part by its exponents, its value and its number in ascending order.
#[derive(Clone, Copy)]
struct Part {
    a: usize,
    b: usize,
    value: u64,
    number: usize,
}

/// The 1,344 parts: a row for each b, ascending.
fn rows() -> Vec<Vec<Part>> {
    let mut parts = Vec::new();
    for (a, b) in (0..64).flat_map(|a| (0..41).map(move |b| (a, b))) {
        let value = 2u128.pow(a) * 3u128.pow(b);
        if value < 1 << 64 {
            parts.push(Part { a: a as usize, b: b as usize, value: value as u64, number: 0 });
        }
    }
    parts.sort_by_key(|p| p.value);
    let mut rows = vec![Vec::new(); 41];
    for (number, part) in parts.into_iter().enumerate() {
        rows[part.b].push(Part { number, ..part });
    }
    rows
}

/// The parts p with p <= r < 2p and exponents up to these. A row has at most one, its highest up to r, and the a of these rises as b falls.
fn leading(r: u64, most_a: usize, most_b: usize, rows: &[Vec<Part>]) -> impl Iterator<Item = Part> + '_ {
    let highest = move |row: &Vec<Part>| row.partition_point(|p| p.value <= r).checked_sub(1).map(|i| row[i]);
    rows[..=most_b].iter().rev().filter_map(highest).take_while(move |p| p.a <= most_a)
}

/// A point of the graph: a part, whether chains end with it, and the points that it can follow. It follows none exactly if it can be the
/// largest part: one that follows another is at most half of it, and so of n.
struct Point {
    a: usize,
    b: usize,
    smallest: bool,
    above: Vec<usize>,
}

/// The points that a path can come to, largest first, so that all that lead to a point stand before it.
fn graph(n: u64, rows: &[Vec<Part>]) -> Vec<Point> {
    let mut met: Vec<Option<(Part, Vec<usize>)>> = vec![None; rows.iter().map(Vec::len).sum()];
    for part in leading(n, 63, 40, rows) {
        met[part.number] = Some((part, Vec::new()));
    }
    let mut points = Vec::new();
    for i in (0..met.len()).rev() {
        if let Some((Part { a, b, value, .. }, above)) = met[i].take() {
            let rest = n % value;
            for next in leading(rest, a, b, rows) {
                met[next.number].get_or_insert((next, Vec::new())).1.push(points.len());
            }
            points.push(Point { a, b, smallest: rest == 0, above });
        }
    }
    points
}

/// The letters of the points passed from one to another that is x further in a and y in b, the other's own not among them: b rises first.
fn letters(x: usize, y: usize, from_part: bool) -> Vec<u8> {
    let mut told = vec![b'2'; y];
    told.resize(x + y, b'0');
    if from_part {
        told[0] += 1;
    }
    told
}

fn letters_before(smallest: &Point) -> Vec<u8> {
    letters(smallest.a, smallest.b, false)
}

fn letters_between(low: &Point, high: &Point) -> Vec<u8> {
    letters(high.a - low.a, high.b - low.b, true)
}

/// How many chains lead down from each point, the smallest point first; then their sum over the largest parts.
fn count(points: &[Point]) -> u64 {
    let mut chains = vec![0; points.len()];
    let mut total = 0;
    for (i, q) in points.iter().enumerate().rev() {
        chains[i] += q.smallest as u64;
        for &j in &q.above {
            chains[j] += chains[i];
        }
        total += if q.above.is_empty() { chains[i] } else { 0 };
    }
    total
}

/// How many chains lead down from each point, by their number of parts; then their sums over the largest parts.
fn shares(points: &[Point]) -> [u64; 65] {
    let mut chains = vec![[0; 65]; points.len()];
    let mut total = [0; 65];
    for (i, q) in points.iter().enumerate().rev() {
        chains[i][1] += q.smallest as u64;
        for k in 1..65 {
            let ways = chains[i][k];
            if ways == 0 {
                continue;
            }
            for &j in &q.above {
                chains[j][k + 1] += ways;
            }
            total[k] += if q.above.is_empty() { ways } else { 0 };
        }
    }
    total
}

/// How many of some words that begin alike are earlier than the word sought, and how many are the same as far as they go.
#[derive(Clone, Copy, Default)]
struct Standing {
    earlier: u64,
    same: u64,
}

impl Standing {
    /// Takes in words that went on by these letters, where the word sought went on by those.
    fn take(&mut self, before: Standing, these: impl Fn() -> Vec<u8>, those: &[u8]) {
        self.earlier += before.earlier;
        if before.same > 0 {
            match these()[..].cmp(those) {
                Ordering::Less => self.earlier += before.same,
                Ordering::Equal => self.same += before.same,
                Ordering::Greater => {}
            }
        }
    }
}

/// The position of a word. For each point, over all chains that lead down from it: how the letters before it stand to the word sought.
fn position(points: &[Point], word: &[u8]) -> Option<u64> {
    let cut = |i: usize, j: usize| &word[i.min(word.len())..j.min(word.len())];
    let one = Standing { earlier: 0, same: 1 };
    let mut standing = vec![Standing::default(); points.len()];
    let mut whole = Standing::default();
    for (i, q) in points.iter().enumerate().rev() {
        let here = q.a + q.b;
        if q.smallest {
            standing[i].take(one, || letters_before(q), cut(0, here));
        }
        let so_far = standing[i];
        for &j in &q.above {
            let high = &points[j];
            standing[j].take(so_far, || letters_between(q, high), cut(here, high.a + high.b));
        }
        if q.above.is_empty() {
            whole.take(so_far, || vec![b'3'], cut(here, word.len()));
        }
    }
    (whole.same == 1).then_some(whole.earlier)
}

/// The word at a position, from the smallest part up. The words still in question fall into groups by their letters up to and with the next
/// part's own, 1 or 3. No group's letters begin another's, so the groups stand one after another in the list.
fn at(points: &[Point], position: u64) -> Option<Vec<u8>> {
    // how many ways lead from the largest parts down to a point: with a rising from the point, and with b rising or none above it
    let mut ways = vec![[0, 0]; points.len()];
    for (i, q) in points.iter().enumerate() {
        ways[i][1] += q.above.is_empty() as u64;
        for &j in &q.above {
            ways[i][(points[j].b > q.b) as usize] += ways[j][0] + ways[j][1];
        }
    }
    let (mut left, mut word) = (position, Vec::new());
    let smallest = (0..points.len()).filter(|&i| points[i].smallest);
    let mut next: Vec<(Vec<u8>, usize)> = smallest.map(|i| (letters_before(&points[i]), i)).collect();
    loop {
        let mut groups = Vec::new();
        for (told, i) in &next {
            groups.push(([told, &b"1"[..]].concat(), *i, ways[*i][0]));
            groups.push(([told, &b"3"[..]].concat(), *i, ways[*i][1]));
        }
        groups.sort();
        let mut groups = groups.into_iter();
        let (mut told, i, _) = loop {
            let group = groups.next()?;
            if left < group.2 {
                break group;
            }
            left -= group.2;
        };
        let (q, letter) = (&points[i], told.pop());
        word.extend(told);
        if q.above.is_empty() {
            word.extend(letter);
            return Some(word);
        }
        let above = q.above.iter().filter(|&&j| (points[j].b > q.b) == (letter == Some(b'3')));
        next = above.map(|&j| (letters_between(q, &points[j]), j)).collect();
    }
}

/// An addition has the price of its point's letter, 1 or 3.
struct Prices {
    doubling: u64,
    tripling: u64,
    addition_at_1: u64,
    addition_at_3: u64,
}

impl Prices {
    /// What letters cost, a word's last not among them: each is a doubling or a tripling, and an addition where its point is a part.
    fn of(&self, told: &[u8]) -> u64 {
        let one = |letter: &u8| match letter {
            b'0' => self.doubling,
            b'1' => self.doubling + self.addition_at_1,
            b'2' => self.tripling,
            _ => self.tripling + self.addition_at_3,
        };
        told.iter().map(one).sum()
    }
}

/// Parts, price, letters: a chain is better where this is less, compared in this order.
type Merit = (u64, u64, Vec<u8>);

fn better(one: &mut Option<Merit>, other: Merit) {
    if one.as_ref().map_or(true, |one| other < *one) {
        *one = Some(other);
    }
}

/// For each point the best of the chains that lead down from it, by the letters before it, which are equally many for all of these chains;
/// then the best over the largest parts within the limits. Fewest parts come first, so K only says whether the best will do.
fn best(points: &[Point], [most_parts, most_a, most_b]: [u64; 3], prices: &Prices) -> Option<Merit> {
    let mut least = vec![None; points.len()];
    let mut whole = None;
    for (i, q) in points.iter().enumerate().rev() {
        if q.smallest {
            let told = letters_before(q);
            better(&mut least[i], (1, prices.of(&told), told));
        }
        if let Some((k, price, before)) = least[i].take() {
            for &j in &q.above {
                let told = letters_between(q, &points[j]);
                better(&mut least[j], (k + 1, price + prices.of(&told), [&before[..], &told].concat()));
            }
            if q.above.is_empty() && q.a as u64 <= most_a && q.b as u64 <= most_b {
                better(&mut whole, (k, price, [&before[..], b"3"].concat()));
            }
        }
    }
    whole.filter(|&(k, _, _)| k <= most_parts)
}

/// Price and letters: of chains with equally many parts one is cheaper where this is less, compared in this order.
type Cost = (u64, Vec<u8>);

fn cheaper(one: &mut Option<Cost>, price: u64, before: &[u8], told: &[u8]) {
    let letters = || before.iter().chain(told);
    let is_less = |(p, known): &Cost| price.cmp(p).then_with(|| letters().cmp(known)) == Ordering::Less;
    if one.as_ref().map_or(true, is_less) {
        *one = Some((price, letters().copied().collect()));
    }
}

/// For each point and each number of parts the cheapest of the chains that lead down from it; then for each number of parts the cheapest
/// over the largest parts within the limits. K is not asked for here: the caller takes those with at most K parts.
fn cheapest(points: &[Point], [most_a, most_b]: [u64; 2], prices: &Prices) -> Vec<Option<Cost>> {
    let mut least = vec![vec![None; 65]; points.len()];
    let mut whole = vec![None; 65];
    for (i, q) in points.iter().enumerate().rev() {
        let mut here = std::mem::take(&mut least[i]);
        if q.smallest {
            let told = letters_before(q);
            cheaper(&mut here[1], prices.of(&told), &[], &told);
        }
        let is_within = q.above.is_empty() && q.a as u64 <= most_a && q.b as u64 <= most_b;
        let told: Vec<_> = q.above.iter().map(|&j| (j, letters_between(q, &points[j]))).map(|(j, told)| (j, prices.of(&told), told)).collect();
        for (k, cost) in here.iter().enumerate() {
            let Some((price, before)) = cost else { continue };
            for (j, more, told) in &told {
                cheaper(&mut least[*j][k + 1], price + more, before, told);
            }
            if is_within {
                cheaper(&mut whole[k], *price, before, b"3");
            }
        }
    }
    whole
}

/// Counts a chain at its sum, and all chains that go on from it. `below` has the proper divisors of its smallest part, ascending, each with
/// its own.
fn extend(sum: usize, below: &[usize], parts: &[(usize, Vec<usize>)], counts: &mut [u32]) {
    counts[sum] += 1;
    for &next in below {
        let (value, divisors) = &parts[next];
        if sum + value >= counts.len() {
            break;
        }
        extend(sum + value, divisors, parts, counts);
    }
}

/// How many chains each number below a limit has, the empty one of 0 among them.
fn search(limit: usize, rows: &[Vec<Part>]) -> Vec<u32> {
    let mut values: Vec<usize> = rows.iter().flatten().map(|p| p.value as usize).filter(|&value| value < limit).collect();
    values.sort();
    let proper = |&value: &usize| (value, (0..values.len()).filter(|&i| values[i] < value && value % values[i] == 0).collect());
    let parts: Vec<(usize, Vec<usize>)> = values.iter().map(proper).collect();
    let all: Vec<usize> = (0..parts.len()).collect();
    let mut counts = vec![0; limit];
    extend(0, &all, &parts, &mut counts);
    counts
}

fn searched(limit: usize, rows: &[Vec<Part>]) -> String {
    let (mut told, mut digest) = (Vec::new(), 0u64);
    for (n, &count) in search(limit, rows).iter().enumerate() {
        digest = 31 * (digest % (1 << 56)) + count as u64;
        if count < 3 {
            told.push(format!("{n}={count}"));
        }
        if (n + 1) % 65536 == 0 {
            told.push(format!("<{}={digest}", n + 1));
        }
    }
    told.join(" ")
}

fn answer(kind: &str, n: u64, more: &[&str], points: &[Point], rows: &[Vec<Part>]) -> Option<String> {
    let number = |i: usize| more[i].parse::<u64>().expect("a number");
    let text = |word| String::from_utf8(word).expect("letters");
    let prices_from = |i: usize| {
        let [doubling, tripling, addition_at_1, addition_at_3] = [i, i + 1, i + 2, i + 3].map(number);
        Prices { doubling, tripling, addition_at_1, addition_at_3 }
    };
    match (kind, n) {
        ("count", 0) => Some("1".to_string()),
        ("count", _) => Some(count(points).to_string()),
        ("position", 0) => (more[0] == "-").then(|| "0".to_string()),
        ("position", _) => position(points, more[0].as_bytes()).map(|before| before.to_string()),
        ("at", 0) => (number(0) == 0).then(|| "-".to_string()),
        ("at", _) => at(points, number(0)).map(text),
        ("best", 0) => Some("0 0 -".to_string()),
        ("best", _) => {
            let found = best(points, [number(0), number(1), number(2)], &prices_from(3));
            found.map(|(k, price, word)| format!("{k} {price} {}", text(word)))
        }
        ("shares", 0) => Some(["1"].into_iter().chain([" 0"; 64]).collect()),
        ("shares", _) => Some(shares(points).map(|ways| ways.to_string()).join(" ")),
        ("cheapest", 0) => Some("0 0 -".to_string()),
        ("cheapest", _) => {
            let found = cheapest(points, [number(0), number(1)], &prices_from(2)).into_iter().enumerate();
            let told: Vec<String> = found.filter_map(|(k, cost)| cost.map(|(price, word)| format!("{k} {price} {}", text(word)))).collect();
            (!told.is_empty()).then(|| told.join(" "))
        }
        ("searched", _) => Some(searched(n as usize, rows)),
        _ => panic!("no such question: {kind}"),
    }
}

fn main() {
    let rows = rows();
    let (mut n, mut points) = (0, Vec::new());
    let mut out = io::stdout().lock();
    for line in io::stdin().lock().lines() {
        let line = line.expect("standard input");
        let fields: Vec<&str> = line.split(' ').collect();
        let asked = fields[1].parse().expect("a 64-bit number");
        if asked != n {
            // questions on one number often follow each other
            n = asked;
            points = graph(n, &rows);
        }
        let told = answer(fields[0], n, &fields[2..], &points, &rows).unwrap_or("none".to_string());
        writeln!(out, "{told}").and_then(|_| out.flush()).expect("standard output");
    }
}
