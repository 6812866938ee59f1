// Threads that take turns under std's Mutex, as crates/bench_lock does at the proved lock.
use std::sync::Mutex;
use std::thread;
use std::time::Duration;

const MOST_TURNS: usize = 100_000;
const DRAWS: u32 = 1_000;

fn drawn(mut state: u64) -> u64 {
    for _ in 0..DRAWS {
        state ^= state << 13;
        state ^= state >> 7;
        state ^= state << 17;
    }
    state
}

fn rest(millis: u64) {
    if millis > 0 {
        thread::sleep(Duration::from_millis(millis));
    }
}

fn main() {
    let words: Vec<String> = std::env::args().collect();
    let held = words[1] == "held";
    let threads: u32 = words[2].parse().unwrap();
    let turns: u32 = if held { 1 } else { words[3].parse().unwrap() };
    let numbers = Mutex::new(Vec::with_capacity(MOST_TURNS));
    thread::scope(|scope| {
        for i in 0..threads {
            let numbers = &numbers;
            scope.spawn(move || {
                let mut state = 1u64;
                rest(if held && i > 0 { 100 } else { 0 });
                for _ in 0..turns {
                    let mut numbers = numbers.lock().unwrap();
                    if numbers.len() < MOST_TURNS {
                        numbers.push(i + 2);
                    }
                    rest(if held && i == 0 { 1000 } else { 0 });
                    state = drawn(std::hint::black_box(state));
                }
                std::hint::black_box(state);
            });
        }
    });
    println!("{} turns", numbers.into_inner().unwrap().len());
}
