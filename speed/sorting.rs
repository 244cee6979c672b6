//! Sorts a list of words with the proved comparison, for speed/sorting: `sorting HOW ROUNDS`, with the list on standard input, each word
//! as a byte that tells its length and then its letters. HOW is `compared`; or `plain`, for a straightforward comparison in Rust; or
//! `known`: then each word's place in the sorted list is known beforehand and the places are compared, so that only the sorting is left.
//!
//! Prints the microseconds of processor time of the fastest round and how many comparisons a round makes. The sorted list must be the one
//! that Rust's own comparison of bytes gives.
use std::cmp::Ordering;
use std::io::Read;

extern "C" {
    /// 0 earlier, 1 the same, 2 later, or the number of a refusal.
    fn sorting_compare(u: *const u8, u_length: usize, v: *const u8, v_length: usize) -> u8;
    /// The C library's: microseconds of processor time so far.
    fn clock() -> i64;
}

#[derive(Clone)]
struct Entry {
    word: Vec<u8>,
    place: usize,
}

fn by_words(u: &Entry, v: &Entry) -> Ordering {
    match unsafe { sorting_compare(u.word.as_ptr(), u.word.len(), v.word.as_ptr(), v.word.len()) } {
        0 => Ordering::Less,
        1 => Ordering::Equal,
        2 => Ordering::Greater,
        number => panic!("refused as {number}"),
    }
}

fn is_good(word: &[u8]) -> bool {
    let side_by_side = |pair: &[u8]| pair[0] <= 1 && pair[1] == 2;
    word.is_empty() || word.iter().all(|&letter| letter <= 3) && word.ends_with(&[3]) && !word.windows(2).any(side_by_side)
}

fn plainly(u: &Entry, v: &Entry) -> Ordering {
    if !(is_good(&u.word) && is_good(&v.word)) {
        panic!("refused as 7");
    }
    u.word.cmp(&v.word)
}

fn by_places(u: &Entry, v: &Entry) -> Ordering {
    u.place.cmp(&v.place)
}

/// The list as it comes, with each word's place in the sorted list.
fn read_list() -> Vec<Entry> {
    let mut bytes = Vec::new();
    std::io::stdin().read_to_end(&mut bytes).unwrap();
    let mut rest = &bytes[..];
    let mut list = Vec::new();
    while let Some((&length, after)) = rest.split_first() {
        let (word, behind) = after.split_at(length as usize);
        list.push(Entry { word: word.to_vec(), place: 0 });
        rest = behind;
    }
    let mut order: Vec<usize> = (0..list.len()).collect();
    order.sort_by(|&i, &j| list[i].word.cmp(&list[j].word));
    for (place, &i) in order.iter().enumerate() {
        list[i].place = place;
    }
    list
}

fn main() {
    let arguments: Vec<String> = std::env::args().collect();
    let compare = match arguments[1].as_str() {
        "compared" => by_words,
        "plain" => plainly,
        "known" => by_places,
        how => panic!("{how} is no way to compare"),
    };
    let list = read_list();
    let mut comparisons = 0u64;
    let mut least = i64::MAX;
    for _ in 0..arguments[2].parse().unwrap() {
        let mut sorted = list.clone();
        let start = unsafe { clock() };
        sorted.sort_by(compare);
        least = least.min(unsafe { clock() } - start);
        assert!(sorted.windows(2).all(|pair| pair[0].word <= pair[1].word), "the list is not sorted");
    }
    let mut once = list.clone();
    once.sort_by(|u, v| {
        comparisons += 1;
        compare(u, v)
    });
    println!("{least} {comparisons}");
}
