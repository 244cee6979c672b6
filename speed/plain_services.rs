//! The services in plain Rust on the same numbers as the proved ones: `plain_services SERVICE TIMES` prints a sum over all answers.
//! SERVICE: 1 count, 2 best chain, 3 chain at a position, 4 choosing.
mod plain;

/// The next number of the sequence (xorshift), the same as in crates/speed_services.
fn next(x: u64) -> u64 {
    let x = x ^ (x << 13);
    let x = x ^ (x >> 7);
    x ^ (x << 17)
}

/// What an answer adds to the sum: every part number counts by its index.
fn digest(c: &plain::Chain) -> u64 {
    let mut sum = c.position ^ (c.price << 32) ^ c.numbers.len() as u64;
    for (i, &p) in c.numbers.iter().enumerate() {
        sum = sum.wrapping_add((p as u64) << (i % 32));
    }
    sum
}

/// Chains at positions below the count, a block of numbers at a time: first all positions of the block, then all chains.
fn placed(ts: &plain::Tables, times: u64, t: &mut plain::Table) -> u64 {
    let (mut x, mut sum, mut done) = (SEED, 0u64, 0);
    while done < times {
        let mut block = Vec::new();
        for _ in 0..BLOCK.min(times - done) {
            let n = next(x);
            x = next(n);
            block.push((n, x % plain::count(ts, n, t)));
            t.fill(0);
        }
        for (n, position) in &block {
            sum = sum.wrapping_add(plain::chain_at(ts, *n, *position, t).map_or(0, |c| digest(&c)));
            t.fill(0);
        }
        done += block.len() as u64;
    }
    sum
}

const SEED: u64 = 88172645463325252;
const BLOCK: u64 = 500;

fn main() {
    let words: Vec<String> = std::env::args().collect();
    let service: u64 = words[1].parse().unwrap();
    let times: u64 = words[2].parse().unwrap();
    let ts = plain::Tables::new();
    let mut t = [0u64; plain::SCRATCH];
    if service == 3 {
        println!("{}", placed(&ts, times, &mut t));
        return;
    }
    let (mut x, mut sum) = (SEED, 0u64);
    for _ in 0..times {
        x = next(x);
        let n = x;
        let answer = if service == 1 {
            plain::count(&ts, n, &mut t)
        } else {
            x = next(x);
            let q = plain::Asked {
                n,
                parts: 64,
                a: 63,
                b: 40,
                d: x % 65536,
                t: (x >> 16) % 65536,
                s2: (x >> 32) % 65536,
                s3: x >> 48,
            };
            let found = if service == 2 { plain::best(&ts, &q, &mut t) } else { plain::choose(&ts, &q, &mut t) };
            found.map_or(0, |c| digest(&c))
        };
        sum = sum.wrapping_add(answer);
        t.fill(0);
    }
    println!("{sum}");
}
