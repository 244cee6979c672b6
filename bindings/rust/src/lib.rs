//! Double-base chains from Rust.
//!
//! A chain writes a number as a sum of parts 2^a × 3^b, each a proper multiple of the next: 19 = 18 + 1. A [`Terminal`] counts the
//! chains of a number, finds its best chain, tells the position of a chain, reads tree words, and replies to lines of hexadecimal;
//! [`run`] runs a chain on a residue, and [`write_tree`] writes a chain's tree word. A [`Table`] finds the cheapest chain of a number,
//! and counts the chains that have at most so many parts. A [`Bench`] moves a chain by hand. The library behind them is proved to
//! meet its contracts in crates/meltsjuk/src/lib.rt for every argument; this package lends it the memory that it asks for. For x86-64
//! Linux. A thread of Rust's usual size has stack enough; bindings/c/meltsjuk.h says how much a call needs.
//!
//! ```
//! let mut terminal = meltsjuk::Terminal::new();
//! assert_eq!(terminal.count(19), 4);
//! assert_eq!(terminal.reply(b"010000000000000013"), "000000000000000004");
//! assert_eq!(meltsjuk::run(&[9, 0], 101, 7), Ok(32)); // 18 + 1, run on 7 modulo 101
//! assert_eq!(meltsjuk::write_tree(&[9, 0]), Ok(vec![1, 3, 3, 2])); // its tree word
//! assert_eq!(terminal.read_tree(&[1, 3, 3, 2]).unwrap().parts, [9, 0]);
//! ```
#![warn(missing_docs)]

const SCRATCH: usize = 512;
const TABLE: usize = 174720;
const PLACES: usize = 64;
const TREE_PLACES: usize = 160;
const REPLY: usize = 514;
const BENCH: usize = 378;

// What the archive defines: bindings/c/meltsjuk.h says what each is lent, leaves and answers.
mod archive {
    extern "C" {
        pub fn meltsjuk_reply(
            line: *const u8,
            line_length: usize,
            scratch: *mut u64,
            scratch_length: usize,
            out: *mut u8,
            out_length: usize,
        ) -> u64;

        pub fn meltsjuk_count(n: u64, scratch: *mut u64, scratch_length: usize, count: *mut u64) -> u8;

        pub fn meltsjuk_count_up_to(n: u64, parts: u8, scratch: *mut u64, scratch_length: usize, count: *mut u64) -> u8;

        pub fn meltsjuk_best(
            n: u64,
            parts_limit: u8,
            a_limit: u8,
            b_limit: u8,
            d: u16,
            t: u16,
            s2: u16,
            s3: u16,
            scratch: *mut u64,
            scratch_length: usize,
            places: *mut u16,
            places_length: usize,
            position: *mut u64,
            k: *mut u64,
            price: *mut u64,
        ) -> u8;

        pub fn meltsjuk_choose(
            n: u64,
            parts_limit: u8,
            a_limit: u8,
            b_limit: u8,
            d: u16,
            t: u16,
            s2: u16,
            s3: u16,
            scratch: *mut u64,
            scratch_length: usize,
            places: *mut u16,
            places_length: usize,
            k: *mut u64,
            price: *mut u64,
        ) -> u8;

        pub fn meltsjuk_cheapest(
            n: u64,
            parts_limit: u8,
            a_limit: u8,
            b_limit: u8,
            d: u16,
            t: u16,
            s2: u16,
            s3: u16,
            scratch: *mut u64,
            scratch_length: usize,
            places: *mut u16,
            places_length: usize,
            k: *mut u64,
            price: *mut u64,
        ) -> u8;

        pub fn meltsjuk_place(
            numbers: *const u16,
            numbers_length: usize,
            scratch: *mut u64,
            scratch_length: usize,
            position: *mut u64,
        ) -> u8;

        pub fn meltsjuk_run(numbers: *const u16, numbers_length: usize, m: u64, x: u64, residue: *mut u64) -> u8;

        pub fn meltsjuk_read_tree(
            letters: *const u8,
            letters_length: usize,
            scratch: *mut u64,
            scratch_length: usize,
            places: *mut u16,
            places_length: usize,
            n: *mut u64,
            position: *mut u64,
            k: *mut u64,
        ) -> u8;

        pub fn meltsjuk_write_tree(
            numbers: *const u16,
            numbers_length: usize,
            places: *mut u8,
            places_length: usize,
            k: *mut u64,
        ) -> u8;

        pub fn meltsjuk_open_bench(numbers: *const u16, numbers_length: usize, bench: *mut u64, bench_length: usize) -> u8;

        pub fn meltsjuk_move(bench: *mut u64, bench_length: usize, kind: u8, up: bool, row: u8) -> u8;

        pub fn meltsjuk_save(bench: *mut u64, bench_length: usize, name: u8) -> u8;

        pub fn meltsjuk_come_back(bench: *mut u64, bench_length: usize, name: u8) -> u8;

        pub fn meltsjuk_walk(bench: *mut u64, bench_length: usize, moves: *mut u64, k: *mut u64) -> u8;

        pub fn meltsjuk_tell(
            bench: *const u64,
            bench_length: usize,
            places: *mut u16,
            places_length: usize,
            n: *mut u64,
            k: *mut u64,
        ) -> u8;
    }
}

/// What a best or cheapest chain must stay within. Limits above 64, 63 and 40 exclude nothing, and the default excludes nothing.
#[derive(Clone, Copy, Debug, PartialEq, Eq)]
pub struct Limits {
    /// How many parts it may have.
    pub parts: u8,
    /// How many doublings: the a of its largest part 2^a × 3^b.
    pub doublings: u8,
    /// How many triplings: the b of its largest part.
    pub triplings: u8,
}

impl Default for Limits {
    fn default() -> Self {
        Limits { parts: 64, doublings: 63, triplings: 40 }
    }
}

/// What a chain costs: `doubling` × a + `tripling` × b, where 2^a × 3^b is its largest part, plus `addition_2` or `addition_3` for
/// each other part. The empty chain costs 0.
#[derive(Clone, Copy, Debug, PartialEq, Eq)]
pub struct Prices {
    /// The price of a doubling.
    pub doubling: u16,
    /// The price of a tripling.
    pub tripling: u16,
    /// The price of an addition right after a doubling: at a part with as many factors 3 as the next larger part of the chain. The
    /// part's letter in the chain's word is 1.
    pub addition_2: u16,
    /// The price of an addition right after a tripling: at a part with fewer factors 3 than the next larger part of the chain. The
    /// part's letter in the chain's word is 3.
    pub addition_3: u16,
}

/// The best chain of a number.
#[derive(Clone, Debug, PartialEq, Eq)]
pub struct Best {
    /// Its part numbers, largest part first: indices in the table of all parts below 2^64, ascending from number 0.
    pub parts: Vec<u16>,
    /// Its position in the list of all chains of the number.
    pub position: u64,
    /// Its price.
    pub price: u64,
}

/// The best chain of a number, as [`Terminal::choose`] tells it, or the cheapest, as [`Table::cheapest`] does: without its position.
#[derive(Clone, Debug, PartialEq, Eq)]
pub struct Chosen {
    /// Its part numbers, largest part first: indices in the table of all parts below 2^64, ascending from number 0.
    pub parts: Vec<u16>,
    /// Its price.
    pub price: u64,
}

/// A chain, with the number that it is a chain of and its place in that number's list.
#[derive(Clone, Debug, PartialEq, Eq)]
pub struct Chain {
    /// The number: the sum of the parts.
    pub n: u64,
    /// The chain's position in the list of all chains of the number.
    pub position: u64,
    /// Its part numbers, largest part first: indices in the table of all parts below 2^64, ascending from number 0.
    pub parts: Vec<u16>,
}

/// Why a chain is not placed or run, a tree word not read or written, or a bench not opened or changed. `refusal as u8` is its number.
/// Lines have further refusals, which [`Terminal::reply`] gives as digits.
#[derive(Clone, Copy, Debug, PartialEq, Eq)]
pub enum Refusal {
    /// A part number is 1,344 or more, or there are more than 64 part numbers.
    NoPart = 8,
    /// A part is not a proper multiple of the next.
    NoChain = 9,
    /// The parts sum to 2^64 or more, or the number of a tree word is 2^64 or more.
    LargeSum = 10,
    /// The modulus is 0 or above 2^63.
    BadModulus = 13,
    /// x is not below the modulus.
    NoResidue = 14,
    /// The letters are no tree word, or the chain is empty and has none.
    NoTreeWord = 15,
    /// The move is not allowed, or the numbers of a bench hold a state that is no chain of its n.
    NoMove = 17,
    /// The name is above 7, or, in coming back, nothing was saved under it.
    NoName = 18,
}

impl Refusal {
    /// The refusal with this number, which the library answered.
    fn of(status: u8) -> Self {
        match status {
            8 => Refusal::NoPart,
            9 => Refusal::NoChain,
            10 => Refusal::LargeSum,
            13 => Refusal::BadModulus,
            14 => Refusal::NoResidue,
            15 => Refusal::NoTreeWord,
            17 => Refusal::NoMove,
            18 => Refusal::NoName,
            _ => unreachable!("no other refusal is given where enough is lent"),
        }
    }
}

impl std::fmt::Display for Refusal {
    fn fmt(&self, f: &mut std::fmt::Formatter) -> std::fmt::Result {
        f.write_str(match self {
            Refusal::NoPart => "a part number is 1344 or more, or there are more than 64 part numbers",
            Refusal::NoChain => "a part is not a proper multiple of the next",
            Refusal::LargeSum => "the parts sum to 2^64 or more, or the number of a tree word is 2^64 or more",
            Refusal::BadModulus => "the modulus is 0 or above 2^63",
            Refusal::NoResidue => "x is not below the modulus",
            Refusal::NoTreeWord => "the letters are no tree word, or the chain is empty and has none",
            Refusal::NoMove => "the move is not allowed, or the bench holds a state that is no chain of its n",
            Refusal::NoName => "the name is above 7, or nothing was saved under it",
        })
    }
}

impl std::error::Error for Refusal {}

/// The chain with these part numbers, largest part first, run on x modulo m. A residue follows the chain's path back from the
/// largest part. It begins as 0, is doubled or tripled at each step, and x is added at each part. It ends as n × x modulo m,
/// where n is the sum of the parts. The empty chain gives 0. No scratch is lent, so no [`Terminal`] is needed.
///
/// The modulus is judged first, then x, then the part numbers: [`Refusal::NoPart`], [`Refusal::NoChain`], [`Refusal::LargeSum`].
///
/// ```
/// use meltsjuk::{run, Refusal};
///
/// assert_eq!(run(&[9, 0], 101, 7), Ok(32)); // 18 + 1: 19 × 7 = 133 = 101 + 32
/// assert_eq!(run(&[], 101, 7), Ok(0));
/// assert_eq!(run(&[0, 9], 101, 7), Err(Refusal::NoChain));
/// assert_eq!(run(&[9, 0], 7, 7), Err(Refusal::NoResidue));
/// ```
pub fn run(parts: &[u16], m: u64, x: u64) -> Result<u64, Refusal> {
    let mut residue = 0;
    // Sound: the part numbers are of the length told, and `residue` is a local.
    let status = unsafe { archive::meltsjuk_run(parts.as_ptr(), parts.len(), m, x, &mut residue) };
    match status {
        0 => Ok(residue),
        _ => Err(Refusal::of(status)),
    }
}

/// The tree word of the chain with these part numbers, largest part first: letters 1, 2 and 3, at most 157 of them. Every chain but
/// the empty one has exactly one tree word, and [`Terminal::read_tree`] leads back. No scratch is lent, so no [`Terminal`] is
/// needed.
///
/// Refuses with [`Refusal::NoPart`], [`Refusal::NoChain`], [`Refusal::LargeSum`] and, for the empty chain, [`Refusal::NoTreeWord`].
///
/// ```
/// use meltsjuk::{write_tree, Refusal};
///
/// assert_eq!(write_tree(&[9, 0]), Ok(vec![1, 3, 3, 2])); // 18 + 1
/// assert_eq!(write_tree(&[8, 1, 0]), Ok(vec![1, 1, 1, 2, 2, 2, 2])); // 16 + 2 + 1
/// assert_eq!(write_tree(&[0]), Ok(vec![])); // 1
/// assert_eq!(write_tree(&[]), Err(Refusal::NoTreeWord));
/// assert_eq!(write_tree(&[0, 9]), Err(Refusal::NoChain));
/// ```
pub fn write_tree(parts: &[u16]) -> Result<Vec<u8>, Refusal> {
    let mut letters = [0; TREE_PLACES];
    let mut k = 0;
    // Sound: the part numbers and the letters are of the lengths told, and `letters` and `k` are locals.
    let status =
        unsafe { archive::meltsjuk_write_tree(parts.as_ptr(), parts.len(), letters.as_mut_ptr(), letters.len(), &mut k) };
    match status {
        0 => Ok(letters[..k as usize].to_vec()),
        _ => Err(Refusal::of(status)),
    }
}

/// A move's kind; docs/BENCH.md shows both.
#[derive(Clone, Copy, Debug, PartialEq, Eq)]
pub enum Kind {
    /// Upwards: the largest part of the row and its half become one part of the row above, as 2 + 1 = 3.
    First = 1,
    /// Upwards: the largest part of the row, which stands there without its half, becomes two, as 4 = 3 + 1. The two fill the gap
    /// below it and the place above the gap; the parts between the largest part and the gap go up a row.
    Second = 2,
}

/// A move's direction: up is towards more factors 3, and down undoes up.
#[derive(Clone, Copy, Debug, PartialEq, Eq)]
pub enum Direction {
    /// Towards more factors 3.
    Up,
    /// Towards fewer factors 3.
    Down,
}

/// What a walk down to the binary chain tells.
#[derive(Clone, Copy, Debug, PartialEq, Eq)]
pub struct Walk {
    /// How many moves it made: never more than 1,280.
    pub moves: u64,
    /// How many parts the binary chain has: the one bits of n.
    pub parts: u64,
}

/// A bench: a chain of n to be moved by hand, and eight names, 0 to 7, to save chains of n under. After any calls it holds a chain of
/// the n that it was opened on. After a refusal it is as it was.
///
/// ```
/// use meltsjuk::{Bench, Direction, Kind, Refusal, Walk};
///
/// let mut bench = Bench::open(&[9, 0]).unwrap(); // 18 + 1
/// assert_eq!(bench.move_chain(Kind::First, Direction::Down, 1), Ok(()));
/// assert_eq!(bench.parts(), [7, 4, 0]); // 12 + 6 + 1
/// assert_eq!(bench.save(5), Ok(()));
/// assert_eq!(bench.walk(), Walk { moves: 2, parts: 3 });
/// assert_eq!(bench.parts(), [8, 1, 0]); // 16 + 2 + 1
/// assert_eq!(bench.come_back(5), Ok(()));
/// assert_eq!(bench.parts(), [7, 4, 0]);
/// assert_eq!(bench.move_chain(Kind::First, Direction::Up, 1), Ok(())); // 12 + 6 are 18 again
/// assert_eq!((bench.n(), bench.parts()), (19, vec![9, 0]));
/// assert_eq!(bench.move_chain(Kind::First, Direction::Up, 1), Err(Refusal::NoMove));
/// assert_eq!(bench.come_back(0), Err(Refusal::NoName));
/// ```
#[derive(Clone, Debug, PartialEq, Eq)]
pub struct Bench {
    numbers: [u64; BENCH],
}

impl Bench {
    /// A bench on the chain with these part numbers, largest part first, with no name saved. Refuses with [`Refusal::NoPart`],
    /// [`Refusal::NoChain`] and [`Refusal::LargeSum`].
    pub fn open(parts: &[u16]) -> Result<Self, Refusal> {
        let mut numbers = [0; BENCH];
        // Sound: the part numbers and the bench are of the lengths told, and the bench is a local.
        let status = unsafe { archive::meltsjuk_open_bench(parts.as_ptr(), parts.len(), numbers.as_mut_ptr(), BENCH) };
        match status {
            0 => Ok(Bench { numbers }),
            _ => Err(Refusal::of(status)),
        }
    }

    /// The bench whose numbers these are, as [`Bench::numbers`] gives them. Refuses with [`Refusal::NoMove`] where the present state or
    /// a saved one is no chain of its n.
    ///
    /// ```
    /// use meltsjuk::{Bench, Refusal};
    ///
    /// let bench = Bench::open(&[9, 0]).unwrap();
    /// let mut numbers = *bench.numbers();
    /// assert_eq!(Bench::with(numbers), Ok(bench));
    /// numbers[0] = 2; // 18 + 2 is no chain of 19
    /// assert_eq!(Bench::with(numbers), Err(Refusal::NoMove));
    /// ```
    pub fn with(numbers: [u64; BENCH]) -> Result<Self, Refusal> {
        let bench = Bench { numbers };
        bench.tell().map(|_| bench)
    }

    /// The numbers of the bench, to store or send it: 41 for the present chain by rows, 41 for each name, n, and one for each name
    /// that is 0 where nothing was saved under it. Bit a of number b in a chain is 1 where 2^a × 3^b is a part.
    pub fn numbers(&self) -> &[u64; BENCH] {
        &self.numbers
    }

    /// Makes the move of this kind and direction at a row: the b of the upward move's 2^a × 3^b, for both directions. There is at
    /// most one; where there is none, refuses with [`Refusal::NoMove`].
    pub fn move_chain(&mut self, kind: Kind, direction: Direction, row: u8) -> Result<(), Refusal> {
        let up = direction == Direction::Up;
        // Sound: the bench is of the length told and borrowed as `&mut`. So it is in the functions below.
        done(unsafe { archive::meltsjuk_move(self.numbers.as_mut_ptr(), BENCH, kind as u8, up, row) })
    }

    /// Saves the present chain under a name, over what was saved there. Refuses with [`Refusal::NoName`] where the name is above 7.
    pub fn save(&mut self, name: u8) -> Result<(), Refusal> {
        done(unsafe { archive::meltsjuk_save(self.numbers.as_mut_ptr(), BENCH, name) })
    }

    /// Comes back to the chain saved under a name; all names stay as they are. Refuses with [`Refusal::NoName`] where the name is
    /// above 7 or nothing was saved under it.
    pub fn come_back(&mut self, name: u8) -> Result<(), Refusal> {
        done(unsafe { archive::meltsjuk_come_back(self.numbers.as_mut_ptr(), BENCH, name) })
    }

    /// Walks down to the binary chain, always at the smallest part in the highest row; all names stay as they are.
    pub fn walk(&mut self) -> Walk {
        let (mut moves, mut parts) = (0, 0);
        let status = unsafe { archive::meltsjuk_walk(self.numbers.as_mut_ptr(), BENCH, &mut moves, &mut parts) };
        assert_eq!(status, 0, "a bench holds chains of its n");
        Walk { moves, parts }
    }

    /// The number that the bench was opened on.
    pub fn n(&self) -> u64 {
        self.tell().expect("a bench holds chains of its n").0
    }

    /// The part numbers of the present chain, largest part first.
    pub fn parts(&self) -> Vec<u16> {
        self.tell().expect("a bench holds chains of its n").1
    }

    /// n and the part numbers of the present chain.
    fn tell(&self) -> Result<(u64, Vec<u16>), Refusal> {
        let mut places = [0; PLACES];
        let (mut n, mut k) = (0, 0);
        // Sound: the bench and the places are of the lengths told, and the places and the two numbers are locals.
        let status =
            unsafe { archive::meltsjuk_tell(self.numbers.as_ptr(), BENCH, places.as_mut_ptr(), PLACES, &mut n, &mut k) };
        done(status).map(|()| (n, places[..k as usize].to_vec()))
    }
}

/// An answer that is a status alone.
fn done(status: u8) -> Result<(), Refusal> {
    match status {
        0 => Ok(()),
        _ => Err(Refusal::of(status)),
    }
}

/// The services that are lent a scratch of 512 numbers, with that memory. Those that are lent more are a [`Table`]'s.
#[derive(Clone, Debug)]
pub struct Terminal {
    scratch: Vec<u64>,
    places: [u16; PLACES],
    reply: [u8; REPLY],
}

impl Default for Terminal {
    fn default() -> Self {
        Terminal::new()
    }
}

impl Terminal {
    /// A terminal, with some 5 KB of memory.
    pub fn new() -> Self {
        Terminal { scratch: vec![0; SCRATCH], places: [0; PLACES], reply: [0; REPLY] }
    }

    /// The reply to one line, given without its byte 10: digits. A line that cannot be served gets the two digits of its refusal. The line
    /// may have capitals A to F and small letters a to f; the reply has capitals. In lines and replies a chain stands as k, a and b of its
    /// largest part 2^a × 3^b, and its k part numbers; the other calls take and tell part numbers alone.
    ///
    /// ```
    /// let mut terminal = meltsjuk::Terminal::new();
    /// // 18 + 1 is the chain of 19 at position 3; 18 is 2^1 × 3^2
    /// assert_eq!(terminal.reply(b"0402010200090000"), "000000000000000013000000000000000302010200090000");
    /// assert_eq!(terminal.reply(b"04010003000b"), "00000000000000001B0000000000000006010003000B"); // 27 is 2^0 × 3^3
    /// assert_eq!(terminal.reply(b"0402020100090000"), "10"); // a and b are not those of 18
    /// assert_eq!(terminal.reply(b"7F"), "04");
    /// ```
    pub fn reply(&mut self, line: &[u8]) -> &str {
        // Sound: each piece of memory is of the length told, and none overlaps another, since `self` is borrowed as `&mut`.
        let digits = unsafe {
            archive::meltsjuk_reply(
                line.as_ptr(),
                line.len(),
                self.scratch.as_mut_ptr(),
                self.scratch.len(),
                self.reply.as_mut_ptr(),
                self.reply.len(),
            )
        };
        assert!(digits >= 2, "a scratch of {SCRATCH} numbers and {REPLY} bytes are enough");
        std::str::from_utf8(&self.reply[..digits as usize]).expect("a reply is digits")
    }

    /// How many chains n has.
    ///
    /// ```
    /// let mut terminal = meltsjuk::Terminal::new();
    /// assert_eq!(terminal.count(27), 7);
    /// assert_eq!(terminal.count(0), 1);
    /// ```
    pub fn count(&mut self, n: u64) -> u64 {
        let mut count = 0;
        // Sound: the scratch is of the length told, and `count` is a local.
        let status = unsafe { archive::meltsjuk_count(n, self.scratch.as_mut_ptr(), self.scratch.len(), &mut count) };
        assert_eq!(status, 0, "a scratch of {SCRATCH} numbers is enough");
        count
    }

    /// The best chain of n within the limits: the fewest parts, then the lowest price, then the earliest position. None where no
    /// chain is within the limits. The number 0 has the empty chain, within any.
    ///
    /// ```
    /// use meltsjuk::{Limits, Prices, Terminal};
    ///
    /// let prices = Prices { doubling: 4, tripling: 7, addition_2: 9, addition_3: 9 };
    /// let mut terminal = Terminal::new();
    /// let best = terminal.best(19, Limits::default(), prices).unwrap();
    /// assert_eq!(best.parts, [9, 0]); // 18 + 1
    /// assert_eq!((best.position, best.price), (3, 27));
    /// assert_eq!(terminal.best(5, Limits { parts: 1, ..Limits::default() }, prices), None);
    /// ```
    ///
    /// The chains 8 + 2 and 9 + 1 of 10 both have two parts, so the prices choose. The addition of 8 + 2 comes right after a
    /// doubling, and that of 9 + 1 right after a tripling.
    ///
    /// ```
    /// use meltsjuk::{Limits, Prices, Terminal};
    ///
    /// let same = Prices { doubling: 4, tripling: 7, addition_2: 9, addition_3: 9 };
    /// let mut terminal = Terminal::new();
    /// let best = terminal.best(10, Limits::default(), same).unwrap();
    /// assert_eq!(best.parts, [5, 1]); // 8 + 2
    /// assert_eq!(best.price, 21); // 3 × 4 + 9, against 2 × 7 + 9 = 23 for 9 + 1
    /// let best = terminal.best(10, Limits::default(), Prices { addition_3: 6, ..same }).unwrap();
    /// assert_eq!(best.parts, [6, 0]); // 9 + 1
    /// assert_eq!(best.price, 20); // 2 × 7 + 6
    /// ```
    pub fn best(&mut self, n: u64, limits: Limits, prices: Prices) -> Option<Best> {
        let (mut position, mut k, mut price) = (0, 0, 0);
        // Sound: the scratch and the places are of the lengths told, and the three numbers are locals.
        let status = unsafe {
            archive::meltsjuk_best(
                n,
                limits.parts,
                limits.doublings,
                limits.triplings,
                prices.doubling,
                prices.tripling,
                prices.addition_2,
                prices.addition_3,
                self.scratch.as_mut_ptr(),
                self.scratch.len(),
                self.places.as_mut_ptr(),
                self.places.len(),
                &mut position,
                &mut k,
                &mut price,
            )
        };
        match status {
            0 => Some(Best { parts: self.places[..k as usize].to_vec(), position, price }),
            5 => None,
            _ => panic!("a scratch of {SCRATCH} numbers and {PLACES} places are enough"),
        }
    }

    /// The chain that [`Terminal::best`] finds, without its position. This takes about two thirds of the time of `best`. None where no
    /// chain is within the limits. [`Terminal::place`] tells the position.
    ///
    /// ```
    /// use meltsjuk::{Limits, Prices, Terminal};
    ///
    /// let prices = Prices { doubling: 4, tripling: 7, addition_2: 9, addition_3: 9 };
    /// let mut terminal = Terminal::new();
    /// let chosen = terminal.choose(19, Limits::default(), prices).unwrap();
    /// assert_eq!((&chosen.parts[..], chosen.price), (&[9, 0][..], 27)); // 18 + 1
    /// assert_eq!(terminal.place(&chosen.parts), Ok(3));
    /// assert_eq!(terminal.choose(5, Limits { parts: 1, ..Limits::default() }, prices), None);
    /// ```
    pub fn choose(&mut self, n: u64, limits: Limits, prices: Prices) -> Option<Chosen> {
        let (mut k, mut price) = (0, 0);
        // Sound: the scratch and the places are of the lengths told, and the two numbers are locals.
        let status = unsafe {
            archive::meltsjuk_choose(
                n,
                limits.parts,
                limits.doublings,
                limits.triplings,
                prices.doubling,
                prices.tripling,
                prices.addition_2,
                prices.addition_3,
                self.scratch.as_mut_ptr(),
                self.scratch.len(),
                self.places.as_mut_ptr(),
                self.places.len(),
                &mut k,
                &mut price,
            )
        };
        match status {
            0 => Some(Chosen { parts: self.places[..k as usize].to_vec(), price }),
            5 => None,
            _ => panic!("a scratch of {SCRATCH} numbers and {PLACES} places are enough"),
        }
    }

    /// The position of a chain in the list of all chains of the number that its parts sum to. The chain is given by its part
    /// numbers, largest part first.
    ///
    /// A part number of 1,344 or more, or more than 64 part numbers, are refused first, with [`Refusal::NoPart`]; then a part that is
    /// no proper multiple of the next with [`Refusal::NoChain`], and then parts that sum to 2^64 or more with [`Refusal::LargeSum`].
    ///
    /// ```
    /// use meltsjuk::{Refusal, Terminal};
    ///
    /// let mut terminal = Terminal::new();
    /// assert_eq!(terminal.place(&[9, 0]), Ok(3)); // 18 + 1, the last of the four chains of 19
    /// assert_eq!(terminal.place(&[]), Ok(0)); // the empty chain
    /// assert_eq!(terminal.place(&[9, 1344]), Err(Refusal::NoPart));
    /// assert_eq!(terminal.place(&[0, 9]), Err(Refusal::NoChain));
    /// ```
    pub fn place(&mut self, parts: &[u16]) -> Result<u64, Refusal> {
        let mut position = 0;
        // Sound: the part numbers and the scratch are of the lengths told, and `position` is a local.
        let status = unsafe {
            archive::meltsjuk_place(
                parts.as_ptr(),
                parts.len(),
                self.scratch.as_mut_ptr(),
                self.scratch.len(),
                &mut position,
            )
        };
        match status {
            0 => Ok(position),
            _ => Err(Refusal::of(status)),
        }
    }

    /// The chain of a tree word: letters 1, 2 and 3, which are read from the last to the first. The chain begins as the part 1
    /// alone. Letter 1 adds one to the sum of its powers of two, and 2 and 3 multiply every part. The empty word is that of the
    /// chain 1.
    ///
    /// A letter that is not 1, 2 or 3 is refused first, with [`Refusal::NoTreeWord`]. Then a word whose number is 2^64 or more is
    /// refused with [`Refusal::LargeSum`], and then letters that are not the word of any chain with [`Refusal::NoTreeWord`].
    ///
    /// ```
    /// use meltsjuk::{Refusal, Terminal};
    ///
    /// let mut terminal = Terminal::new();
    /// let chain = terminal.read_tree(&[1, 3, 3, 2]).unwrap();
    /// assert_eq!(chain.parts, [9, 0]); // 18 + 1
    /// assert_eq!((chain.n, chain.position), (19, 3));
    /// assert_eq!(terminal.read_tree(&[]).unwrap().parts, [0]); // 1
    /// assert_eq!(terminal.read_tree(&[1, 1]), Err(Refusal::NoTreeWord)); // the words of 3 are 3 and 12
    /// assert_eq!(terminal.read_tree(&[2; 64]), Err(Refusal::LargeSum)); // 2^64
    /// ```
    pub fn read_tree(&mut self, letters: &[u8]) -> Result<Chain, Refusal> {
        let (mut n, mut position, mut k) = (0, 0, 0);
        // Sound: the letters, the scratch and the places are of the lengths told, and the three numbers are locals.
        let status = unsafe {
            archive::meltsjuk_read_tree(
                letters.as_ptr(),
                letters.len(),
                self.scratch.as_mut_ptr(),
                self.scratch.len(),
                self.places.as_mut_ptr(),
                self.places.len(),
                &mut n,
                &mut position,
                &mut k,
            )
        };
        match status {
            0 => Ok(Chain { n, position, parts: self.places[..k as usize].to_vec() }),
            _ => Err(Refusal::of(status)),
        }
    }
}

/// The two services that go by the number of parts of a chain, with the memory that they are lent, 1.4 MB. A call takes longer than
/// one by a [`Terminal`].
#[derive(Clone, Debug)]
pub struct Table {
    numbers: Vec<u64>,
    places: [u16; PLACES],
}

impl Default for Table {
    fn default() -> Self {
        Table::new()
    }
}

impl Table {
    /// A table, with its memory.
    pub fn new() -> Self {
        Table { numbers: vec![0; TABLE], places: [0; PLACES] }
    }

    /// The cheapest chain of n within the limits: the lowest price, then the fewest parts, then the earliest position. None where no
    /// chain is within the limits. The number 0 has the empty chain, within any. [`Terminal::place`] tells the position.
    ///
    /// ```
    /// use meltsjuk::{Limits, Prices, Table, Terminal};
    ///
    /// let prices = Prices { doubling: 4, tripling: 7, addition_2: 2, addition_3: 2 };
    /// let best = Terminal::new().choose(19, Limits::default(), prices).unwrap();
    /// assert_eq!((&best.parts[..], best.price), (&[9, 0][..], 20)); // 18 + 1
    /// let mut table = Table::new();
    /// let cheapest = table.cheapest(19, Limits::default(), prices).unwrap();
    /// assert_eq!((&cheapest.parts[..], cheapest.price), (&[7, 4, 0][..], 19)); // 12 + 6 + 1: a part more, and cheaper
    /// assert_eq!(Terminal::new().place(&cheapest.parts), Ok(2));
    /// let two = Limits { parts: 2, ..Limits::default() };
    /// assert_eq!(table.cheapest(19, two, prices), Some(best));
    /// assert_eq!(table.cheapest(19, Limits { parts: 1, ..two }, prices), None);
    /// ```
    pub fn cheapest(&mut self, n: u64, limits: Limits, prices: Prices) -> Option<Chosen> {
        let (mut k, mut price) = (0, 0);
        // Sound: the numbers and the places are of the lengths told, and the two other numbers are locals.
        let status = unsafe {
            archive::meltsjuk_cheapest(
                n,
                limits.parts,
                limits.doublings,
                limits.triplings,
                prices.doubling,
                prices.tripling,
                prices.addition_2,
                prices.addition_3,
                self.numbers.as_mut_ptr(),
                self.numbers.len(),
                self.places.as_mut_ptr(),
                self.places.len(),
                &mut k,
                &mut price,
            )
        };
        match status {
            0 => Some(Chosen { parts: self.places[..k as usize].to_vec(), price }),
            5 => None,
            _ => panic!("{TABLE} numbers and {PLACES} places are enough"),
        }
    }

    /// How many chains of n have at most so many parts: 0 where there is none. The number 0 has one, the empty chain. No chain has
    /// more than 64 parts, so from 64 on this is the count that [`Terminal::count`] tells.
    ///
    /// ```
    /// let mut table = meltsjuk::Table::new();
    /// // 18 + 1; 16 + 2 + 1 and 12 + 6 + 1; 12 + 4 + 2 + 1
    /// let counts: Vec<u64> = (0..6).map(|parts| table.count_up_to(19, parts)).collect();
    /// assert_eq!(counts, [0, 0, 1, 3, 4, 4]);
    /// assert_eq!(table.count_up_to(0, 0), 1);
    /// assert_eq!(table.count_up_to(u64::MAX, 64), meltsjuk::Terminal::new().count(u64::MAX));
    /// ```
    pub fn count_up_to(&mut self, n: u64, parts: u8) -> u64 {
        let mut count = 0;
        // Sound: the numbers are of the length told, and `count` is a local.
        let status = unsafe {
            archive::meltsjuk_count_up_to(n, parts, self.numbers.as_mut_ptr(), self.numbers.len(), &mut count)
        };
        assert_eq!(status, 0, "{TABLE} numbers are enough");
        count
    }
}
