//! A bench from Rust, as docs/BENCH.md shows it from C: a move of 27 + 9 + 3 + 1, a name saved, the walk, and back. Prints the chains
//! with the values of their parts.
use meltsjuk::{Bench, Direction, Kind, Refusal};

/// The value of each part, by part number.
fn values() -> Vec<u64> {
    let points = (0..64).flat_map(|a| (0..41).map(move |b| 2u128.pow(a) * 3u128.pow(b)));
    let mut values: Vec<u64> = points.filter(|&value| value < 1 << 64).map(|value| value as u64).collect();
    values.sort();
    values
}

fn show(bench: &Bench) {
    let values = values();
    let parts: Vec<String> = bench.parts().iter().map(|&number| values[number as usize].to_string()).collect();
    println!("{} = {}", bench.n(), parts.join(" + "));
}

fn main() -> Result<(), Refusal> {
    let mut bench = Bench::open(&[11, 6, 2, 0])?; // 27 + 9 + 3 + 1
    show(&bench);
    bench.move_chain(Kind::Second, Direction::Down, 2)?;
    show(&bench);
    bench.save(0)?;
    let walk = bench.walk();
    println!("{} moves to {} parts", walk.moves, walk.parts);
    show(&bench);
    bench.come_back(0)?;
    show(&bench);
    Ok(())
}
