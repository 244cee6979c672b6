//! The cheapest chain and the count up to a number of parts in plain Rust, as one first writes them: a flat table with a cell for each
//! point, reader and number of parts that are still allowed, a division and an `if` a cell. For speed/limited.
use crate::plain::{live, Asked, Tables, ROWS};

/// How many numbers are lent: two readers and 0 to 64 parts at each of the 1,344 points. They are zero on return.
pub const TABLE: usize = 1344 * 2 * WIDTH;
const WIDTH: usize = 65;
/// A key is price × 128 + parts.
const PRICE: u64 = 128;
const NONE: u64 = 1 << 41;

/// Where things stand: the tables of all plain services, and the point with which each row begins.
pub struct Points {
    ts: Tables,
    starts: [usize; ROWS],
}

impl Points {
    pub fn new() -> Points {
        let mut starts = [0; ROWS];
        for b in 1..ROWS {
            starts[b] = starts[b - 1] + live(u64::MAX / 3u64.pow(b as u32 - 1));
        }
        Points { ts: Tables::new(), starts }
    }

    fn cell(&self, a: usize, b: usize, after_a: usize, k: usize) -> usize {
        ((self.starts[b] + a) * 2 + after_a) * WIDTH + k
    }

    fn fill_counts(&self, n: u64, most: usize, t: &mut [u64]) {
        for b in (0..ROWS).rev() {
            let row = n / self.ts.pow3[b];
            for a in (0..live(row)).rev() {
                let m = row >> a;
                for k in 0..=most {
                    let (mut free, mut after_a) = (0, 0);
                    if k > 0 && m == 1 {
                        free = 1;
                        after_a = 1;
                    } else if k > 0 {
                        after_a = t[self.cell(a + 1, b, 1, k - (m % 2) as usize)];
                        free = after_a;
                        match m % 3 {
                            0 => free += t[self.cell(a, b + 1, 0, k)],
                            1 => {
                                free += t[self.cell(a, b + 1, 0, k - 1)];
                                after_a = free;
                            }
                            _ => {}
                        }
                    }
                    t[self.cell(a, b, 0, k)] = free;
                    t[self.cell(a, b, 1, k)] = after_a;
                }
            }
        }
    }

    /// How many chains of n have at most so many parts.
    pub fn count_up_to(&self, n: u64, parts: u8, t: &mut [u64]) -> Result<u64, u8> {
        if t.len() < TABLE {
            return Err(1);
        }
        let most = parts.min(64) as usize;
        let mut count = 1;
        if n > 0 {
            self.fill_counts(n, most, t);
            count = t[self.cell(0, 0, 0, most)];
        }
        t[..TABLE].fill(0);
        Ok(count)
    }

    fn fill_keys(&self, q: &Asked, most: usize, t: &mut [u64]) {
        for b in (0..ROWS).rev() {
            let row = q.n / self.ts.pow3[b];
            for a in (0..live(row)).rev() {
                let m = row >> a;
                for k in 0..=most {
                    let (mut free, mut after_a) = (NONE, NONE);
                    if k > 0 && a <= q.a && b <= q.b {
                        if m == 1 {
                            free = 1;
                            after_a = 1;
                        } else {
                            if a < q.a {
                                after_a = self.by_half(q, m, a, b, k, t);
                            }
                            free = after_a;
                            if b < q.b && m % 3 < 2 {
                                let third = self.by_third(q, m, a, b, k, t);
                                free = free.min(third);
                                if m % 3 == 1 {
                                    after_a = free;
                                }
                            }
                        }
                    }
                    t[self.cell(a, b, 0, k)] = free;
                    t[self.cell(a, b, 1, k)] = after_a;
                }
            }
        }
    }

    /// The key where a rises at the point.
    fn by_half(&self, q: &Asked, m: u64, a: usize, b: usize, k: usize, t: &[u64]) -> u64 {
        if m % 2 == 1 {
            t[self.cell(a + 1, b, 1, k - 1)] + (q.d + q.s2) * PRICE + 1
        } else {
            t[self.cell(a + 1, b, 1, k)] + q.d * PRICE
        }
    }

    /// The key where b rises at the point.
    fn by_third(&self, q: &Asked, m: u64, a: usize, b: usize, k: usize, t: &[u64]) -> u64 {
        if m % 3 == 1 {
            t[self.cell(a, b + 1, 0, k - 1)] + (q.t + q.s3) * PRICE + 1
        } else {
            t[self.cell(a, b + 1, 0, k)] + q.t * PRICE
        }
    }

    /// The part numbers of the cheapest chain, smallest part first; the keys are in the table.
    fn walk(&self, q: &Asked, most: usize, t: &[u64]) -> Vec<u16> {
        let (mut a, mut b, mut after_a, mut k) = (0, 0, 0, most);
        let mut found = Vec::new();
        loop {
            let m = (q.n / self.ts.pow3[b]) >> a;
            if m == 1 {
                found.push(self.ts.number(a, b));
                return found;
            }
            let up = a < q.a && self.by_half(q, m, a, b, k, t) == t[self.cell(a, b, after_a, k)];
            let part = if up { m % 2 == 1 } else { m % 3 == 1 };
            if part {
                found.push(self.ts.number(a, b));
                k -= 1;
            }
            if up {
                a += 1;
                after_a = 1;
            } else {
                b += 1;
                after_a = 0;
            }
        }
    }

    /// How many parts the cheapest chain within the limits has, and its price. Its part numbers are in the places, then zeros up to 64.
    pub fn cheapest(&self, q: &Asked, t: &mut [u64], places: &mut [u16]) -> Result<(u64, u64), u8> {
        if t.len() < TABLE || places.len() < 64 {
            return Err(1);
        }
        let most = q.parts.min(64) as usize;
        let mut told = Ok((0, 0));
        let mut found = Vec::new();
        if q.n > 0 {
            self.fill_keys(q, most, t);
            let key = t[self.cell(0, 0, 0, most)];
            if key >= NONE {
                told = Err(5);
            } else {
                found = self.walk(q, most, t);
                told = Ok((found.len() as u64, key / PRICE));
            }
        }
        t[..TABLE].fill(0);
        if told.is_ok() {
            places[..64].fill(0);
            for (place, &number) in places.iter_mut().zip(found.iter().rev()) {
                *place = number;
            }
        }
        told
    }
}
