//! The atomic steps of the shared runtime's calls in plain Rust, timed beside the program of
//! crates/cb_shared_bench by bench/pins, with the same words on its command line. A turn of the far lock is a
//! Mutex that is taken and given back.
use std::hint::black_box;
use std::sync::Mutex;
use std::sync::atomic::AtomicU64;
use std::sync::atomic::Ordering::SeqCst;
use std::thread;
use std::time::Instant;

const HANDLES: usize = 1024;
const FRAMES: usize = 64;
/// How far the objects of two threads stand apart.
const APART: usize = 32;
/// The bytes of each object, and its words.
const BYTES: usize = 1024;
const WORDS: usize = BYTES / 8;
/// One pin in a pointer word, and what a claim adds to it.
const PIN: u64 = 8;
const CLAIM: u64 = 1;

/// The words: that of the lock, the pointer words, the version words and the memory words.
struct Table {
    words: Vec<AtomicU64>,
    lock: Mutex<u64>,
}

impl Table {
    fn new() -> Table {
        let count = 1 + 2 * HANDLES + 512 * FRAMES;
        let words: Vec<AtomicU64> = (0..count).map(|_| AtomicU64::new(0)).collect();
        for h in 0..HANDLES {
            words[1 + h].store(2, SeqCst);
            words[1 + HANDLES + h].store(1, SeqCst);
        }
        Table { words, lock: Mutex::new(0) }
    }

    fn pin(&self, h: usize) -> Option<u64> {
        let saw = self.words[1 + h].load(SeqCst);
        match self.words[1 + h].compare_exchange(saw, saw + PIN, SeqCst, SeqCst) {
            Ok(_) => Some(self.words[1 + HANDLES + h].load(SeqCst)),
            Err(_) => None,
        }
    }

    fn unpin(&self, h: usize) {
        self.words[1 + h].fetch_sub(PIN, SeqCst);
    }

    fn peek(&self, place: usize, index: usize) -> u64 {
        self.words[1 + 2 * HANDLES + place + index].load(SeqCst)
    }

    fn write(&self, h: usize, place: usize, bytes: &[u8]) -> Option<u64> {
        let saw = self.words[1 + h].load(SeqCst);
        if self.words[1 + h].compare_exchange(saw, saw + CLAIM, SeqCst, SeqCst).is_err() {
            return None;
        }
        let version = self.words[1 + HANDLES + h].load(SeqCst);
        for (index, part) in bytes.chunks_exact(8).enumerate() {
            let word = u64::from_le_bytes(part.try_into().ok()?);
            self.words[1 + 2 * HANDLES + place + index].store(word, SeqCst);
        }
        self.words[1 + HANDLES + h].store(version + 1, SeqCst);
        self.words[1 + h].store(saw, SeqCst);
        Some(version + 1)
    }

    fn turn(&self) -> Option<u64> {
        let mut turns = self.lock.lock().ok()?;
        *turns += 1;
        Some(*turns)
    }
}

/// How many calls a slice has: some milliseconds of them.
fn calls_of(deed: &str) -> usize {
    match deed {
        "pin" | "look" | "write8" | "turn" => 200_000,
        "peek" => 6_400_000,
        _ => 10_000,
    }
}

/// The time of a slice's calls of a thread in nanoseconds.
fn time(table: &Table, deed: &str, thread: usize) -> u64 {
    let count = calls_of(deed);
    let h = (thread + 1) * APART - 1;
    let place = h * WORDS;
    let bytes = black_box([thread as u8 + 1; BYTES]);
    let start = Instant::now();
    match deed {
        "pin" => {
            for _ in 0..count {
                black_box(table.pin(h).expect("no other thread has the object"));
                table.unpin(h);
            }
        }
        "look" => {
            for _ in 0..count {
                black_box(table.pin(h).expect("no other thread has the object"));
                black_box(table.peek(place, 0));
                table.unpin(h);
            }
        }
        "peek" => {
            let mut sum = 0u64;
            for _ in 0..count / WORDS {
                for index in 0..WORDS {
                    sum = sum.wrapping_add(table.peek(place, index));
                }
            }
            black_box(sum);
        }
        "turn" => {
            for _ in 0..count {
                black_box(table.turn().expect("no thread panics"));
            }
        }
        _ => {
            let part = if deed == "write8" { &bytes[..8] } else { &bytes[..] };
            for _ in 0..count {
                black_box(table.write(h, place, part).expect("no other thread has the object"));
            }
        }
    }
    start.elapsed().as_nanos() as u64
}

/// The time of the slowest thread of a slice.
fn slice(deed: &str, threads: usize) -> u64 {
    let table = Table::new();
    if threads == 1 {
        return time(&table, deed, 0);
    }
    thread::scope(|scope| {
        let table = &table;
        let all: Vec<_> = (0..threads).map(|thread| scope.spawn(move || time(table, deed, thread))).collect();
        all.into_iter().map(|one| one.join().expect("no thread panics")).max().unwrap_or(0)
    })
}

fn main() {
    let words: Vec<String> = std::env::args().collect();
    let threads = words[2].parse().expect("a count of threads");
    let slices: usize = words[3].parse().expect("a count of slices");
    let least = (0..slices).map(|_| slice(&words[1], threads)).min().unwrap_or(0);
    println!("{}", least * 1000 / calls_of(&words[1]) as u64);
}
