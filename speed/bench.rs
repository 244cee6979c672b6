//! The proved bench against the two plain ones, for speed/bench: `bench TURNS`. Gives each piece of work to all three in turn, so many
//! times, and prints for each its name, how many calls it has, and the microseconds of processor time of the fastest turn: proved,
//! plain on rows, plain on parts. What the three answer, and the chains that they end with, must be the same.
mod plain_bench;

use plain_bench::{Answer, Bench, OnParts, OnRows};
use std::sync::OnceLock;

extern "C" {
    fn meltsjuk_open_bench(numbers: *const u16, numbers_length: usize, bench: *mut u64, bench_length: usize) -> u8;
    fn meltsjuk_move(bench: *mut u64, bench_length: usize, kind: u8, up: bool, row: u8) -> u8;
    fn meltsjuk_save(bench: *mut u64, bench_length: usize, name: u8) -> u8;
    fn meltsjuk_come_back(bench: *mut u64, bench_length: usize, name: u8) -> u8;
    fn meltsjuk_walk(bench: *mut u64, bench_length: usize, moves: *mut u64, k: *mut u64) -> u8;
    fn meltsjuk_tell(bench: *const u64, bench_length: usize, places: *mut u16, places_length: usize, n: *mut u64, k: *mut u64) -> u8;
    /// The C library's: microseconds of processor time so far.
    fn clock() -> i64;
}

const BENCH: usize = 378;

/// a and b of each part, by part number.
fn exponents() -> &'static [(u32, u32)] {
    static TABLE: OnceLock<Vec<(u32, u32)>> = OnceLock::new();
    TABLE.get_or_init(|| {
        let points = (0..64).flat_map(|a| (0..41).map(move |b| (a, b)));
        let mut parts: Vec<_> = points.map(|(a, b)| (2u128.pow(a) * 3u128.pow(b), (a, b))).collect();
        parts.retain(|part| part.0 < 1 << 64);
        parts.sort();
        parts.into_iter().map(|part| part.1).collect()
    })
}

#[derive(Clone)]
struct Proved([u64; BENCH]);

fn answer(status: u8) -> Answer {
    match status {
        0 => Ok(()),
        number => Err(number),
    }
}

impl Bench for Proved {
    fn open(parts: &[(u32, u32)]) -> Self {
        let number_of = |part| exponents().iter().position(|&other| other == part).expect("a part") as u16;
        let numbers: Vec<u16> = parts.iter().map(|&part| number_of(part)).collect();
        let mut bench = [0; BENCH];
        assert_eq!(unsafe { meltsjuk_open_bench(numbers.as_ptr(), numbers.len(), bench.as_mut_ptr(), BENCH) }, 0);
        Proved(bench)
    }

    fn move_chain(&mut self, kind: u8, up: bool, row: u8) -> Answer {
        answer(unsafe { meltsjuk_move(self.0.as_mut_ptr(), BENCH, kind, up, row) })
    }

    fn save(&mut self, name: u8) -> Answer {
        answer(unsafe { meltsjuk_save(self.0.as_mut_ptr(), BENCH, name) })
    }

    fn come_back(&mut self, name: u8) -> Answer {
        answer(unsafe { meltsjuk_come_back(self.0.as_mut_ptr(), BENCH, name) })
    }

    fn walk(&mut self) -> Result<(u64, u64), u8> {
        let (mut moves, mut k) = (0, 0);
        answer(unsafe { meltsjuk_walk(self.0.as_mut_ptr(), BENCH, &mut moves, &mut k) })?;
        Ok((moves, k))
    }

    fn tell(&self) -> Result<(u64, Vec<(u32, u32)>), u8> {
        let (mut n, mut k) = (0, 0);
        let mut places = [0; 64];
        answer(unsafe { meltsjuk_tell(self.0.as_ptr(), BENCH, places.as_mut_ptr(), places.len(), &mut n, &mut k) })?;
        Ok((n, places[..k as usize].iter().map(|&number| exponents()[number as usize]).collect()))
    }
}

// ---- the work

/// A call of a service but `open` and `tell`.
#[derive(Clone, Copy)]
enum Call {
    Move { kind: u8, up: bool, row: u8 },
    Save(u8),
    ComeBack(u8),
    Walk,
}

/// Calls on a bench that stands as after some others.
struct Run {
    parts: Vec<(u32, u32)>,
    before: Vec<Call>,
    calls: Vec<Call>,
}

struct Work {
    name: &'static str,
    runs: Vec<Run>,
    rounds: usize,
}

struct Chance(u64);

impl Chance {
    /// The next number (xorshift).
    fn next(&mut self) -> u64 {
        self.0 ^= self.0 << 13;
        self.0 ^= self.0 >> 7;
        self.0 ^= self.0 << 17;
        self.0
    }

    fn one_of<T: Copy>(&mut self, things: &[T]) -> T {
        things[(self.next() % things.len() as u64) as usize]
    }
}

fn all_moves() -> Vec<Call> {
    let kinds = |row| [(1, true), (1, false), (2, true), (2, false)].map(|(kind, up)| Call::Move { kind, up, row });
    (0..40).flat_map(kinds).collect()
}

/// A call on a bench, its answer as a number: 0 or a refusal, and for a walk moves and parts.
fn made<B: Bench>(bench: &mut B, call: Call) -> u64 {
    let done = match call {
        Call::Move { kind, up, row } => bench.move_chain(kind, up, row),
        Call::Save(name) => bench.save(name),
        Call::ComeBack(name) => bench.come_back(name),
        Call::Walk => return bench.walk().map_or_else(u64::from, |(moves, k)| moves << 8 | k),
    };
    done.map_or_else(u64::from, |()| 0)
}

/// Moves from a chain, each drawn from those that are allowed there.
struct Stroll {
    parts: Vec<(u32, u32)>,
    moves: Vec<Call>,
}

impl Stroll {
    fn from(chance: &mut Chance, parts: Vec<(u32, u32)>, length: usize) -> Self {
        let mut bench = OnRows::open(&parts);
        let mut moves = Vec::new();
        for _ in 0..length {
            let mut allowed = all_moves();
            allowed.retain(|&call| made(&mut bench.clone(), call) == 0);
            let call = chance.one_of(&allowed);
            made(&mut bench, call);
            moves.push(call);
        }
        Stroll { parts, moves }
    }

    /// The moves, with no name saved.
    fn with_none(&self) -> Run {
        Run { parts: self.parts.clone(), before: vec![], calls: self.moves.clone() }
    }

    /// Calls that save the first chain and seven others of the stroll, and come back to the first.
    fn saving(&self) -> Vec<Call> {
        let mut calls = vec![Call::Save(0)];
        for (name, some) in (1..8).zip(self.moves.chunks(self.moves.len() / 7)) {
            calls.extend_from_slice(some);
            calls.push(Call::Save(name));
        }
        calls.push(Call::ComeBack(0));
        calls
    }

    /// The calls, with eight names saved.
    fn with_eight(&self, calls: &[Call]) -> Run {
        Run { parts: self.parts.clone(), before: self.saving(), calls: calls.to_vec() }
    }
}

/// The binary chain of a random number of 64 bits.
fn binary(chance: &mut Chance) -> Vec<(u32, u32)> {
    let n = chance.next() | 1 << 63;
    (0..64).rev().filter(|a| n >> a & 1 == 1).map(|a| (a, 0)).collect()
}

/// 3^40 and some of the powers of 3 from 3^37 down.
fn powers(chance: &mut Chance) -> Vec<(u32, u32)> {
    let some = chance.next();
    (0..41).rev().filter(|&b| b == 40 || b < 38 && some >> b & 1 == 1).map(|b| (0, b)).collect()
}

fn all_work() -> Vec<Work> {
    let mut chance = Chance(88172645463325252);
    let walks = Run { parts: vec![(0, 40)], before: vec![Call::Save(0)], calls: [Call::ComeBack(0), Call::Walk].repeat(2000) };
    let low: Vec<Stroll> = (0..20)
        .map(|_| {
            let parts = binary(&mut chance);
            Stroll::from(&mut chance, parts, 2000)
        })
        .collect();
    let high: Vec<Stroll> = (0..400)
        .map(|_| {
            let parts = powers(&mut chance);
            Stroll::from(&mut chance, parts, 70)
        })
        .collect();
    let asked: Vec<Call> = (0..2000).map(|_| chance.one_of(&all_moves())).collect();
    let names = (0..8).flat_map(|name| [Call::Save(name), Call::ComeBack(7 - name)]).collect::<Vec<_>>().repeat(125);
    vec![
        Work { name: "come back to 3^40, walk: 453 moves", runs: vec![walks], rounds: 1 },
        Work { name: "moves, no name saved", runs: low.iter().map(Stroll::with_none).collect(), rounds: 5 },
        Work { name: "moves, eight saved", runs: low.iter().map(|stroll| stroll.with_eight(&stroll.moves)).collect(), rounds: 5 },
        Work { name: "moves in high rows, no name saved", runs: high.iter().map(Stroll::with_none).collect(), rounds: 5 },
        Work {
            name: "moves in high rows, eight saved",
            runs: high.iter().map(|stroll| stroll.with_eight(&stroll.moves)).collect(),
            rounds: 5,
        },
        Work { name: "moves asked at random, eight saved", runs: low.iter().map(|stroll| stroll.with_eight(&asked)).collect(), rounds: 5 },
        Work { name: "saves and returns, eight saved", runs: low.iter().map(|stroll| stroll.with_eight(&names)).collect(), rounds: 5 },
    ]
}

// ---- what is measured

/// Microseconds for the work, a digest of all answers, and the chains at the end.
fn timed<B: Bench>(work: &Work) -> (i64, u64, Vec<(u64, Vec<(u32, u32)>)>) {
    let opened: Vec<B> = work
        .runs
        .iter()
        .map(|run| {
            let mut bench = B::open(&run.parts);
            run.before.iter().for_each(|&call| assert_eq!(made(&mut bench, call), 0));
            bench
        })
        .collect();
    let mut digest = 0u64;
    let mut ends = Vec::new();
    let mut time = 0;
    for _ in 0..work.rounds {
        let mut benches = opened.clone();
        let start = unsafe { clock() };
        for (bench, run) in benches.iter_mut().zip(&work.runs) {
            for &call in &run.calls {
                digest = digest.wrapping_mul(31).wrapping_add(made(bench, call));
            }
        }
        time += unsafe { clock() } - start;
        ends = benches.iter().map(|bench| bench.tell().expect("a chain")).collect();
    }
    (time, digest, ends)
}

fn main() {
    let turns: usize = std::env::args().nth(1).expect("how many turns").parse().expect("a number");
    let mut power = Proved::open(&[(0, 40)]);
    assert_eq!(power.walk(), Ok((453, 3u64.pow(40).count_ones() as u64)), "the walk from 3^40");
    for work in all_work() {
        let mut least = [i64::MAX; 3];
        for _ in 0..turns {
            let (proved, rows, parts) = (timed::<Proved>(&work), timed::<OnRows>(&work), timed::<OnParts>(&work));
            assert!(proved.1 == rows.1 && proved.2 == rows.2, "{}: the proved bench and the one on rows differ", work.name);
            assert!(proved.1 == parts.1 && proved.2 == parts.2, "{}: the proved bench and the one on parts differ", work.name);
            least = [least[0].min(proved.0), least[1].min(rows.0), least[2].min(parts.0)];
        }
        let calls = work.rounds * work.runs.iter().map(|run| run.calls.len()).sum::<usize>();
        println!("{}\t{calls}\t{}\t{}\t{}", work.name, least[0], least[1], least[2]);
    }
}
