//! Times what Rust programs use in place of a table: `thread_local!`, and a map by `ThreadId` under
//! a lock. A line for each measurement, with the peer, the name of the workload that it stands
//! beside, and the nanoseconds of one operation, the least of several rounds. The argument is the
//! number of rounds.

use std::arch::asm;
use std::cell::Cell;
use std::collections::HashMap;
use std::hint::black_box;
use std::sync::{Barrier, Mutex};
use std::thread::{self, ThreadId};
use std::time::{Duration, Instant};

/// How many operations a round made, and in what time.
type Round = (u64, Duration);

const HITS: u64 = 10_000_000;

/// What stands before it in memory is written before what stands after it: no loop is merged.
#[inline(always)]
fn keep_apart() {
    // SAFETY: there is no instruction.
    unsafe { asm!("", options(nostack, preserves_flags)) }
}

fn sum_below(end: u64) -> u64 {
    end * (end - 1) / 2
}

/// So many threads at once, each with its number.
fn by_threads(threads: u64, work: impl Fn(u64) + Sync) -> Duration {
    let start = Instant::now();
    thread::scope(|scope| {
        for thread in 0..threads {
            let work = &work;
            scope.spawn(move || work(thread));
        }
    });
    start.elapsed()
}

thread_local! {
    static COUNTS: [Cell<u64>; 2] = const { [Cell::new(0), Cell::new(0)] };
}

fn add_one(count: &Cell<u64>) {
    count.set(count.get().wrapping_add(1));
}

/// Finds two declared variables by turns and adds to them. Of the mask no compiler knows that it is 1.
fn hit_declared() -> Round {
    let mask = black_box(1);
    let start = Instant::now();
    for number in 0..HITS {
        COUNTS.with(|counts| add_one(&counts[usize::from(number & mask != 0)]));
        keep_apart();
    }
    let time = start.elapsed();
    let sum: u64 = COUNTS.with(|counts| counts.iter().map(|count| count.replace(0)).sum());
    assert_eq!(sum, HITS);
    (HITS, time)
}

/// Adds a number to a sum. It isn't inlined, so that each sum is stored.
#[inline(never)]
fn add_number(sum: &Cell<u64>, number: u64) {
    sum.set(sum.get().saturating_add(number));
}

/// Four threads add numbers up, each in its own variable, and hand over their sums.
fn tally_declared() -> Round {
    const NUMBERS: u64 = 4_000_000;
    let sums = Mutex::new(0);
    let time = by_threads(4, |thread| {
        COUNTS.with(|counts| {
            let sum = &counts[0];
            for turn in 0..NUMBERS / 4 {
                add_number(sum, turn * 4 + thread);
            }
            *sums.lock().unwrap() += sum.get();
        });
    });
    assert_eq!(*sums.lock().unwrap(), sum_below(NUMBERS));
    (NUMBERS, time)
}

/// A map by `ThreadId` under a lock.
type Map = Mutex<HashMap<ThreadId, u64>>;

/// Publishes the running thread's value in a map.
fn first(map: &Map, number: u64) {
    map.lock().unwrap().insert(thread::current().id(), number);
}

/// The `ThreadId`s of so many threads. No two threads of a process have the same one.
fn thread_ids(count: usize) -> Vec<ThreadId> {
    let id = |_| thread::spawn(|| thread::current().id()).join().unwrap();
    (0..count).map(id).collect()
}

/// A map with a value of each of these threads.
fn filled(ids: &[ThreadId]) -> Map {
    let numbered = ids.iter().zip(0u64..);
    Mutex::new(numbered.map(|(id, number)| (*id, number)).collect())
}

fn sum_of(map: &Map) -> u64 {
    map.lock().unwrap().values().sum()
}

/// Finds the values of two maps by turns and adds to them.
fn hit() -> Round {
    let maps = [Map::default(), Map::default()];
    for map in &maps {
        first(map, 0);
    }
    let mask = black_box(1);
    let start = Instant::now();
    for number in 0..HITS {
        let mut map = maps[usize::from(number & mask != 0)].lock().unwrap();
        if let Some(count) = map.get_mut(&thread::current().id()) {
            *count += 1;
        }
    }
    let time = start.elapsed();
    let sum: u64 = maps.iter().map(sum_of).sum();
    assert_eq!(sum, HITS);
    (HITS, time)
}

/// A map is made, its first value too, and it is dropped.
fn new_first_drop() -> Round {
    const TIMES: u64 = 200_000;
    let start = Instant::now();
    for number in 0..TIMES {
        let map = Map::default();
        first(&map, number);
        black_box(&map);
    }
    (TIMES, start.elapsed())
}

/// Walks over a map under its lock, often enough. An operation is one value.
fn walk(ids: &[ThreadId], walks: u64) -> Round {
    let map = filled(ids);
    let mut sum = 0;
    let start = Instant::now();
    for _ in 0..walks {
        for value in map.lock().unwrap().values() {
            sum += value;
        }
    }
    let time = start.elapsed();
    let values = ids.len() as u64;
    assert_eq!(sum, sum_below(values) * walks);
    (values * walks, time)
}

/// Clears maps, several times. Each keeps its memory.
fn clear(ids: &[ThreadId], maps: usize, times: usize) -> Round {
    let mut time = Duration::ZERO;
    for _ in 0..times {
        let maps: Vec<_> = (0..maps).map(|_| filled(ids)).collect();
        let start = Instant::now();
        for map in &maps {
            map.lock().unwrap().clear();
        }
        time += start.elapsed();
        black_box(&maps);
    }
    ((maps * times) as u64, time)
}

/// Four threads add numbers up. Each takes the lock for each number.
fn tally() -> Round {
    const NUMBERS: u64 = 200_000;
    let map = Map::default();
    let time = by_threads(4, |thread| {
        for turn in 0..NUMBERS / 4 {
            let mut map = map.lock().unwrap();
            let sum = map.entry(thread::current().id()).or_insert(0);
            *sum = sum.saturating_add(turn * 4 + thread);
        }
    });
    assert_eq!(sum_of(&map), sum_below(NUMBERS));
    (NUMBERS, time)
}

/// Four threads publish their first values in new maps, each thread in each map.
fn storm() -> Round {
    const MAPS: u64 = 20_000;
    let maps: Vec<_> = (0..MAPS).map(|_| Map::default()).collect();
    let begin = Barrier::new(4);
    let time = by_threads(4, |_| {
        begin.wait();
        for (map, number) in maps.iter().zip(0..) {
            first(map, number);
        }
    });
    let sum: u64 = maps.iter().map(sum_of).sum();
    assert_eq!(sum, 4 * sum_below(MAPS));
    (MAPS, time)
}

fn main() {
    let rounds = std::env::args().nth(1).and_then(|word| word.parse().ok()).unwrap_or(1u32);
    let report = |peer: &str, line: &str, round: &dyn Fn() -> Round| {
        let times = (0..rounds.max(1)).map(|_| {
            let (operations, time) = round();
            time.as_nanos() as f64 / operations as f64
        });
        println!("{peer}|{line}|{:.3}", times.fold(f64::INFINITY, f64::min));
    };
    report("Rust thread_local!", "get_hit", &hit_declared);
    report("Rust thread_local!", "tally_4_threads", &tally_declared);
    let (eight, many) = (thread_ids(8), thread_ids(1023));
    let map = "Mutex<HashMap>";
    report(map, "get_hit", &hit);
    report(map, "new_first_drop", &new_first_drop);
    report(map, "iter_8", &|| walk(&eight, 400_000));
    report(map, "iter_1023", &|| walk(&many, 5_000));
    report(map, "clear_8", &|| clear(&eight, 64, 500));
    report(map, "clear_1023", &|| clear(&many, 1000, 2));
    report(map, "tally_4_threads", &tally);
    report(map, "first_4_threads", &storm);
}
