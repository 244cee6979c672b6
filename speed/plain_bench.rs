//! The bench of docs/BENCH.md in straightforward Rust, twice: on rows of bits and on a list of parts. Each service first
//! looks whether the present and each saved state is a chain of n. For speed/bench.

/// A refusal's number: document 02's.
pub type Answer = Result<(), u8>;

pub const ROWS: usize = 41;

/// What both benches do.
pub trait Bench: Clone {
    /// A bench on the chain with these exponents, largest part first. The list is taken as good.
    fn open(parts: &[(u32, u32)]) -> Self;
    fn move_chain(&mut self, kind: u8, up: bool, row: u8) -> Answer;
    fn save(&mut self, name: u8) -> Answer;
    fn come_back(&mut self, name: u8) -> Answer;
    /// The number of moves, and of parts of the binary chain.
    fn walk(&mut self) -> Result<(u64, u64), u8>;
    /// n, and the exponents of the parts, largest part first.
    fn tell(&self) -> Result<(u64, Vec<(u32, u32)>), u8>;
}

fn sum_of(parts: &[(u32, u32)]) -> Option<u64> {
    parts.iter().try_fold(0u64, |sum, &(a, b)| {
        let part = 3u64.checked_pow(b)?.checked_mul(1u64.checked_shl(a)?)?;
        sum.checked_add(part)
    })
}

// ---- on rows: bit a of row b is 1 where 2^a × 3^b is a part

type Rows = [u64; ROWS];

#[derive(Clone)]
pub struct OnRows {
    n: u64,
    present: Rows,
    saved: [Option<Rows>; 8],
}

/// Whether the rows are those of a chain of n.
fn is_chain_of(rows: &Rows, n: u64) -> bool {
    let mut least = 0; // no part in this row or above has a smaller a
    let mut sum = 0u64;
    let mut power = 1u64; // 3^b
    for (b, &row) in rows.iter().enumerate() {
        if row != 0 {
            if row.trailing_zeros() < least {
                return false;
            }
            least = 63 - row.leading_zeros();
            match power.checked_mul(row).and_then(|x| sum.checked_add(x)) {
                Some(more) => sum = more,
                None => return false,
            }
        }
        if b < ROWS - 1 {
            power *= 3;
        }
    }
    sum == n
}

impl OnRows {
    fn is_sound(&self) -> bool {
        is_chain_of(&self.present, self.n) && self.saved.iter().flatten().all(|rows| is_chain_of(rows, self.n))
    }

    fn judged(&self) -> Answer {
        if self.is_sound() {
            Ok(())
        } else {
            Err(17)
        }
    }

    fn up(&mut self, kind: u8, b: usize) -> Answer {
        let row = self.present[b];
        if row < 2 {
            return Err(17);
        }
        let a = 63 - row.leading_zeros();
        let beside = row >> (a - 1) & 1 == 1;
        match kind {
            1 if beside => {
                self.present[b] &= !(3 << (a - 1));
                self.present[b + 1] |= 1 << (a - 1);
                Ok(())
            }
            2 if !beside && a >= 2 => {
                // the parts from a - 2 down to c + 1, and the gap c below them
                let mut c = a - 2;
                while row >> c & 1 == 1 {
                    if c == 0 {
                        return Err(17);
                    }
                    c -= 1;
                }
                if self.present[..b].iter().any(|&lower| lower >> (c + 1) != 0) {
                    return Err(17);
                }
                let between = (1u64 << (a - 1)) - (1 << (c + 1));
                self.present[b] = row - (1 << a) - between + (1 << c);
                self.present[b + 1] |= between | 1 << c;
                Ok(())
            }
            _ => Err(17),
        }
    }

    fn down(&mut self, kind: u8, b: usize) -> Answer {
        let (x, y) = (self.present[b], self.present[b + 1]);
        if y == 0 {
            return Err(17);
        }
        let c = y.trailing_zeros();
        let beside = x >> c != 0;
        let a = match kind {
            1 if !beside => c + 1,
            2 if beside => c + (!(y >> c)).trailing_zeros() + 1,
            _ => return Err(17),
        };
        if self.present[b + 2..].iter().any(|&upper| upper != 0 && upper.trailing_zeros() < a) {
            return Err(17);
        }
        if kind == 1 {
            self.present[b] |= 3 << c;
            self.present[b + 1] &= !(1 << c);
        } else {
            let between = (1u64 << (a - 1)) - (1 << (c + 1));
            self.present[b] = x - (1 << c) + between + (1 << a);
            self.present[b + 1] = y - between - (1 << c);
        }
        Ok(())
    }
}

impl Bench for OnRows {
    fn open(parts: &[(u32, u32)]) -> Self {
        let mut present = [0; ROWS];
        for &(a, b) in parts {
            present[b as usize] |= 1 << a;
        }
        OnRows { n: sum_of(parts).expect("below 2^64"), present, saved: [None; 8] }
    }

    fn move_chain(&mut self, kind: u8, up: bool, row: u8) -> Answer {
        self.judged()?;
        let b = row as usize;
        if b >= ROWS - 1 {
            return Err(17);
        }
        if up {
            self.up(kind, b)
        } else {
            self.down(kind, b)
        }
    }

    fn save(&mut self, name: u8) -> Answer {
        self.judged()?;
        *self.saved.get_mut(name as usize).ok_or(18)? = Some(self.present);
        Ok(())
    }

    fn come_back(&mut self, name: u8) -> Answer {
        self.judged()?;
        self.present = self.saved.get(name as usize).copied().flatten().ok_or(18)?;
        Ok(())
    }

    fn walk(&mut self) -> Result<(u64, u64), u8> {
        self.judged()?;
        let mut moves = 0;
        for b in (0..ROWS - 1).rev() {
            while self.present[b + 1] != 0 {
                let kind = if self.present[b] >> self.present[b + 1].trailing_zeros() == 0 { 1 } else { 2 };
                self.down(kind, b)?;
                moves += 1;
            }
        }
        Ok((moves, self.present[0].count_ones() as u64))
    }

    fn tell(&self) -> Result<(u64, Vec<(u32, u32)>), u8> {
        self.judged()?;
        let mut parts = Vec::new();
        for (b, &row) in self.present.iter().enumerate().rev() {
            for a in (0..64).rev() {
                if row >> a & 1 == 1 {
                    parts.push((a, b as u32));
                }
            }
        }
        Ok((self.n, parts))
    }
}

// ---- on a list of parts (a, b), largest first

#[derive(Clone)]
pub struct OnParts {
    n: u64,
    present: Vec<(u32, u32)>,
    saved: [Option<Vec<(u32, u32)>>; 8],
}

fn are_chain_of(parts: &[(u32, u32)], n: u64) -> bool {
    let above = |p: (u32, u32), q: (u32, u32)| p != q && p.0 >= q.0 && p.1 >= q.1;
    parts.windows(2).all(|pair| above(pair[0], pair[1])) && sum_of(parts) == Some(n)
}

impl OnParts {
    fn judged(&self) -> Answer {
        if are_chain_of(&self.present, self.n) && self.saved.iter().flatten().all(|parts| are_chain_of(parts, self.n)) {
            Ok(())
        } else {
            Err(17)
        }
    }

    fn has(&self, part: (u32, u32)) -> bool {
        self.present.contains(&part)
    }

    /// Takes parts out, puts others in, and sorts.
    fn change(&mut self, out: &[(u32, u32)], with: &[(u32, u32)]) {
        self.present.retain(|part| !out.contains(part));
        self.present.extend_from_slice(with);
        self.present.sort_by(|p, q| (q.1, q.0).cmp(&(p.1, p.0)));
    }

    fn up(&mut self, kind: u8, b: u32) -> Answer {
        let &(a, _) = self.present.iter().find(|part| part.1 == b).ok_or(17)?;
        if a == 0 {
            return Err(17);
        }
        match (kind, self.has((a - 1, b))) {
            (1, true) => {
                self.change(&[(a, b), (a - 1, b)], &[(a - 1, b + 1)]);
                Ok(())
            }
            (2, false) => {
                let c = (0..a - 1).rev().find(|&c| !self.has((c, b))).ok_or(17)?;
                if self.present.iter().any(|part| part.1 < b && part.0 > c) {
                    return Err(17);
                }
                let mut out = vec![(a, b)];
                let mut with = vec![(c, b), (c, b + 1)];
                for i in c + 1..a - 1 {
                    out.push((i, b));
                    with.push((i, b + 1));
                }
                self.change(&out, &with);
                Ok(())
            }
            _ => Err(17),
        }
    }

    fn down(&mut self, kind: u8, b: u32) -> Answer {
        let &(c, _) = self.present.iter().rfind(|part| part.1 == b + 1).ok_or(17)?;
        let beside = self.present.iter().any(|part| part.1 == b && part.0 >= c);
        let a = match (kind, beside) {
            (1, false) => c + 1,
            (2, true) => (c..).find(|&i| !self.has((i, b + 1))).expect("a row has an end") + 1,
            _ => return Err(17),
        };
        if self.present.iter().any(|part| part.1 > b + 1 && part.0 < a) {
            return Err(17);
        }
        if kind == 1 {
            self.change(&[(c, b + 1)], &[(c, b), (c + 1, b)]);
        } else {
            let mut out = vec![(c, b), (c, b + 1)];
            let mut with = vec![(a, b)];
            for i in c + 1..a - 1 {
                out.push((i, b + 1));
                with.push((i, b));
            }
            self.change(&out, &with);
        }
        Ok(())
    }
}

impl Bench for OnParts {
    fn open(parts: &[(u32, u32)]) -> Self {
        OnParts { n: sum_of(parts).expect("below 2^64"), present: parts.to_vec(), saved: Default::default() }
    }

    fn move_chain(&mut self, kind: u8, up: bool, row: u8) -> Answer {
        self.judged()?;
        if up {
            self.up(kind, row as u32)
        } else {
            self.down(kind, row as u32)
        }
    }

    fn save(&mut self, name: u8) -> Answer {
        self.judged()?;
        *self.saved.get_mut(name as usize).ok_or(18)? = Some(self.present.clone());
        Ok(())
    }

    fn come_back(&mut self, name: u8) -> Answer {
        self.judged()?;
        self.present = self.saved.get(name as usize).cloned().flatten().ok_or(18)?;
        Ok(())
    }

    fn walk(&mut self) -> Result<(u64, u64), u8> {
        self.judged()?;
        let mut moves = 0;
        while let Some(&(_, b @ 1..)) = self.present.first() {
            self.down(1, b - 1).or_else(|_| self.down(2, b - 1))?;
            moves += 1;
        }
        Ok((moves, self.present.len() as u64))
    }

    fn tell(&self) -> Result<(u64, Vec<(u32, u32)>), u8> {
        self.judged()?;
        Ok((self.n, self.present.clone()))
    }
}
