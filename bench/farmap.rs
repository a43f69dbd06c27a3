//! A `Vec` and a `HashMap` of numbers, timed beside the far array and the far map by bench/farmap, with the same words on the
//! command line as the program of crates/cb_shared_bench.
use std::collections::HashMap;
use std::hint::black_box;
use std::time::Instant;

/// Numbers of the list, and pairs of the map.
const NUMBERS: usize = 512;
const PAIRS: u64 = 64;
/// Rounds of a slice; each has a call for each number, or for each pair.
const ROUNDS: usize = 400;

/// Nanoseconds that a slice takes, and the calls in it.
fn slice(word: &str) -> Option<(u128, usize)> {
    let mut list: Vec<u64> = (0..NUMBERS as u64).collect();
    let mut map: HashMap<u64, u64> = (0..PAIRS).map(|key| (key * 64, key)).collect();
    let (mut took, mut calls) = (0, 0);
    for round in 0..ROUNDS {
        // What is taken away or put back outside of the time.
        match word {
            "push" => list.clear(),
            "pop" => list = (0..NUMBERS as u64).collect(),
            _ => {}
        }
        let start = Instant::now();
        match word {
            "get" => (0..NUMBERS).for_each(|i| { black_box(list[black_box(i * 129 % NUMBERS)]); }),
            "set" => (0..NUMBERS).for_each(|i| list[black_box(i * 129 % NUMBERS)] = round as u64),
            "push" => (0..NUMBERS).for_each(|_| list.push(black_box(round as u64))),
            "pop" => (0..NUMBERS).for_each(|_| { black_box(list.pop()); }),
            "maplook" => (0..PAIRS).for_each(|key| { black_box(map.get(&black_box(key * 64))); }),
            "mapput" => (0..PAIRS).for_each(|key| { black_box(map.insert(black_box(key * 64), round as u64)); }),
            _ => return None,
        }
        took += start.elapsed().as_nanos();
        calls += if word.starts_with("map") { PAIRS as usize } else { NUMBERS };
        black_box((&list, &map));
    }
    Some((took, calls))
}

/// Prints the least time of a call in picoseconds, over so many slices.
fn main() {
    let words: Vec<String> = std::env::args().collect();
    let slices = words.get(2).and_then(|word| word.parse().ok()).unwrap_or(1);
    let least = (0..slices).filter_map(|_| slice(words.get(1)?)).map(|(took, calls)| took * 1000 / calls as u128).min();
    println!("{}", least.expect("a word, and how many slices"));
}
