//! The two services that go by the number of parts against plain Rust, for speed/limited: `limited TURNS CALLS`. Gives each piece of work
//! to the proved library and to plain Rust in turn, so many times, and prints for each its name, how many calls it has, and the
//! microseconds of processor time of the fastest turn: proved, plain. What the two answer, and what they leave in the memory that they are
//! lent, must be the same.
#[allow(dead_code)]
mod plain;
mod plain_limited;

use plain::Asked;
use plain_limited::{Points, TABLE};

extern "C" {
    fn meltsjuk_count_up_to(n: u64, parts: u8, scratch: *mut u64, scratch_length: usize, count: *mut u64) -> u8;
    fn meltsjuk_cheapest(
        n: u64,
        parts_limit: u8,
        a_limit: u8,
        b_limit: u8,
        d: u16,
        t: u16,
        s2: u16,
        s3: u16,
        scratch: *mut u64,
        scratch_length: usize,
        places: *mut u16,
        places_length: usize,
        k: *mut u64,
        price: *mut u64,
    ) -> u8;
    /// The C library's: microseconds of processor time so far.
    fn clock() -> i64;
}

/// The memory that is lent: a few numbers and places more than are asked for.
struct Memory {
    numbers: Vec<u64>,
    places: Vec<u16>,
}

impl Memory {
    fn new() -> Memory {
        Memory { numbers: vec![u64::MAX; TABLE + 3], places: vec![u16::MAX; 67] }
    }
}

/// Both services.
trait Services {
    fn count_up_to(&self, q: &Asked, memory: &mut Memory) -> Result<u64, u8>;
    fn cheapest(&self, q: &Asked, memory: &mut Memory) -> Result<(u64, u64), u8>;
}

struct Proved;

impl Services for Proved {
    fn count_up_to(&self, q: &Asked, memory: &mut Memory) -> Result<u64, u8> {
        let mut count = 0;
        let numbers = &mut memory.numbers;
        match unsafe { meltsjuk_count_up_to(q.n, q.parts as u8, numbers.as_mut_ptr(), numbers.len(), &mut count) } {
            0 => Ok(count),
            refusal => Err(refusal),
        }
    }

    fn cheapest(&self, q: &Asked, memory: &mut Memory) -> Result<(u64, u64), u8> {
        let (mut k, mut price) = (0, 0);
        let status = unsafe {
            meltsjuk_cheapest(
                q.n,
                q.parts as u8,
                q.a as u8,
                q.b as u8,
                q.d as u16,
                q.t as u16,
                q.s2 as u16,
                q.s3 as u16,
                memory.numbers.as_mut_ptr(),
                memory.numbers.len(),
                memory.places.as_mut_ptr(),
                memory.places.len(),
                &mut k,
                &mut price,
            )
        };
        match status {
            0 => Ok((k, price)),
            refusal => Err(refusal),
        }
    }
}

impl Services for Points {
    fn count_up_to(&self, q: &Asked, memory: &mut Memory) -> Result<u64, u8> {
        Points::count_up_to(self, q.n, q.parts as u8, &mut memory.numbers)
    }

    fn cheapest(&self, q: &Asked, memory: &mut Memory) -> Result<(u64, u64), u8> {
        Points::cheapest(self, q, &mut memory.numbers, &mut memory.places)
    }
}

// ---- the work

#[derive(Clone, Copy)]
enum Service {
    Count,
    Cheapest,
}

struct Work {
    name: &'static str,
    service: Service,
    calls: Vec<Asked>,
}

struct Chance(u64);

impl Chance {
    /// The next number (xorshift).
    fn next(&mut self) -> u64 {
        self.0 ^= self.0 << 13;
        self.0 ^= self.0 >> 7;
        self.0 ^= self.0 << 17;
        self.0
    }

    fn below(&mut self, bound: u64) -> u64 {
        self.next() % bound
    }

    /// A random number of 64 bits and random prices, with no limits.
    fn unlimited(&mut self) -> Asked {
        let mut price = || self.below(1 << 16);
        let (d, t, s2, s3) = (price(), price(), price(), price());
        Asked { n: self.next(), parts: 64, a: 63, b: 40, d, t, s2, s3 }
    }

    /// The same with random limits.
    fn limited(&mut self) -> Asked {
        Asked { parts: self.below(65), a: self.below(64) as usize, b: self.below(41) as usize, ..self.unlimited() }
    }

    /// The same with no limits, and a number near 2^64.
    fn large(&mut self) -> Asked {
        Asked { n: u64::MAX - self.below(1 << 20), ..self.unlimited() }
    }
}

fn all_work(calls: usize) -> Vec<Work> {
    let mut chance = Chance(88172645463325252);
    let mut work = |name, service, ask: fn(&mut Chance) -> Asked| Work {
        name,
        service,
        calls: (0..calls).map(|_| ask(&mut chance)).collect(),
    };
    vec![
        work("count, random K", Service::Count, Chance::limited),
        work("count, K = 64", Service::Count, Chance::unlimited),
        work("count, n near 2^64, K = 64", Service::Count, Chance::large),
        work("cheapest, random limits", Service::Cheapest, Chance::limited),
        work("cheapest, no limits", Service::Cheapest, Chance::unlimited),
        work("cheapest, n near 2^64, no limits", Service::Cheapest, Chance::large),
    ]
}

// ---- what is measured

/// A digest of an answer, of the first places and of the numbers and places that must be untouched.
fn digest_of(answer: Result<(u64, u64), u8>, memory: &Memory) -> u64 {
    let (first, second) = answer.unwrap_or_else(|refusal| (u64::MAX, refusal as u64));
    let mixed = |digest: u64, x: u64| digest.wrapping_mul(31).wrapping_add(x);
    let places = memory.places.iter().fold(mixed(first, second), |digest, &place| mixed(digest, place as u64));
    memory.numbers[TABLE..].iter().fold(places, |digest, &number| mixed(digest, number))
}

/// Microseconds for the work, and a digest of all answers.
fn timed(services: &dyn Services, work: &Work) -> (i64, u64) {
    let mut memory = Memory::new();
    let mut digest = 0u64;
    let start = unsafe { clock() };
    for q in &work.calls {
        let answer = match work.service {
            Service::Count => services.count_up_to(q, &mut memory).map(|count| (count, 0)),
            Service::Cheapest => services.cheapest(q, &mut memory),
        };
        digest = digest.wrapping_mul(31).wrapping_add(digest_of(answer, &memory));
    }
    let time = unsafe { clock() } - start;
    assert!(memory.numbers[..TABLE].iter().all(|&number| number == 0), "{}: the numbers are not zero", work.name);
    (time, digest)
}

fn main() {
    let mut arguments = std::env::args().skip(1).map(|word| word.parse().expect("a number"));
    let (turns, calls): (usize, usize) = (arguments.next().expect("how many turns"), arguments.next().expect("how many calls"));
    let points = Points::new();
    for work in all_work(calls) {
        let mut least = [i64::MAX; 2];
        for _ in 0..turns {
            let (proved, plain) = (timed(&Proved, &work), timed(&points, &work));
            assert_eq!(proved.1, plain.1, "{}: the library and plain Rust differ", work.name);
            least = [least[0].min(proved.0), least[1].min(plain.0)];
        }
        println!("{}\t{calls}\t{}\t{}", work.name, least[0], least[1]);
    }
}
