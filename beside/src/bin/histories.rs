//! Threads make calls at random on one table of the Rust crate after another, and the history is
//! printed, for `tools/histories --check` to check. The arguments are how many calls, by how many
//! threads at a time, and a seed. `crates/thread_local_histories/src/main.rt` says what a line is.
//!
//! A thread of the Rust crate is what a `Local` is there: it takes its id at its first call, here
//! `opened::own_id`, and gives it back at its end. That end lies between the thread's last stamp and
//! one that is drawn once it was joined. Each of several lines of threads starts and joins one thread
//! after another. In every eleventh table the threads of a round hold 1100 ids together.

use std::env;
use std::fmt::Write as _;
use std::io::{self, Write as _};
use std::sync::atomic::{AtomicU64, Ordering::SeqCst};
use std::sync::Barrier;
use std::thread;
use thread_local::{opened, ThreadLocal};

const ROUNDS: u64 = 8;
const CALLS: u64 = 1000;
const MANY: u64 = 1100;
const OWNER: u64 = MANY;

static CLOCK: AtomicU64 = AtomicU64::new(1);
static MADE: AtomicU64 = AtomicU64::new(1);

fn stamp() -> u64 {
    CLOCK.fetch_add(1, SeqCst)
}

/// A number that nobody made before.
fn fresh() -> u64 {
    MADE.fetch_add(1, SeqCst)
}

fn stirred(state: u64) -> u64 {
    state.wrapping_mul(6364136223846793005).wrapping_add(1442695040888963407)
}

/// A call: its stamps, and the rest of its line.
type Call = (u64, u64, String);

/// The call that is made by `make`, which answers the end of its line.
fn call(calls: &mut Vec<Call>, name: &str, make: impl FnOnce() -> String) {
    let before = stamp();
    let answer = make();
    let after = stamp();
    calls.push((before, after, format!("{name} {answer}")));
}

fn shown(found: Option<&u64>) -> String {
    found.map_or("-".to_string(), |value| value.to_string())
}

/// A walk that gives up to `most` values, and ends there.
fn walk(calls: &mut Vec<Call>, table: &ThreadLocal<u64>, most: usize) {
    let asked = if most == usize::MAX { "-".to_string() } else { most.to_string() };
    call(calls, "walk -", || {
        let mut line = format!("{asked} -");
        for value in table.iter().take(most) {
            write!(line, " {value}").unwrap();
        }
        line
    });
}

/// What a thread calls, from its first stamp to its last. Its id is taken at the first call. At a
/// gate it waits then until so many threads have theirs.
fn live(table: &ThreadLocal<u64>, local: u64, count: u64, seed: u64, gate: Option<&Barrier>) -> (Vec<Call>, u64) {
    let mut calls = Vec::with_capacity(64);
    let mut state = seed;
    call(&mut calls, "local", || {
        let id = opened::own_id();
        format!("{local} - {id}")
    });
    gate.map(Barrier::wait);
    for _ in 0..count {
        state = stirred(state);
        match (state >> 33) % 16 {
            0..=5 => call(&mut calls, "get", || format!("{local} - {}", shown(table.get()))),
            6..=8 => {
                let value = fresh();
                call(&mut calls, "get_or", || format!("{local} {value} {}", table.get_or(|| value)));
            }
            9..=10 => {
                let value = fresh();
                call(&mut calls, "get_or_try", || {
                    let answer: Result<&u64, u64> = table.get_or_try(|| Ok(value));
                    format!("{local} {value} {}", answer.unwrap())
                });
            }
            11..=13 => {
                let error = fresh();
                call(&mut calls, "fail", || match table.get_or_try(|| Err::<u64, u64>(error)) {
                    Ok(value) => format!("{local} {error} {value}"),
                    Err(error) => format!("{local} {error} error:{error}"),
                });
            }
            _ => walk(&mut calls, table, [1, 2, 5, usize::MAX][(state >> 45) as usize % 4]),
        }
    }
    (calls, stamp())
}

/// Starts and joins one thread after another, until they have made so many calls.
fn line(table: &ThreadLocal<u64>, count: u64, seed: u64) -> Vec<Call> {
    let mut calls = Vec::new();
    let mut state = seed;
    while (calls.len() as u64) < count {
        state = stirred(state);
        let (local, most, seed) = (fresh(), (state >> 40) % 24, state);
        let (mut made, before) =
            thread::scope(|scope| scope.spawn(move || live(table, local, most, seed, None)).join().unwrap());
        calls.append(&mut made);
        calls.push((before, stamp(), format!("drop {local} - -")));
    }
    calls
}

/// Lines of threads, side by side. Answers the calls of each.
fn lines(table: &ThreadLocal<u64>, threads: u64, seed: u64) -> Vec<Vec<Call>> {
    thread::scope(|scope| {
        let started: Vec<_> = (0..threads)
            .map(|thread| scope.spawn(move || line(table, CALLS / threads + 1, seed + thread)))
            .collect();
        started.into_iter().map(|thread| thread.join().unwrap()).collect()
    })
}

/// Starts many threads, and joins them once each has its id. Answers the calls of each.
fn crowd(table: &ThreadLocal<u64>, seed: u64) -> Vec<Vec<Call>> {
    let gate = &Barrier::new(MANY as usize);
    thread::scope(|scope| {
        let started: Vec<_> = (0..MANY)
            .map(|number| {
                let (local, seed) = (fresh(), stirred(seed + number));
                (local, scope.spawn(move || live(table, local, (seed >> 40) % 4, seed, Some(gate))))
            })
            .collect();
        let ended = started.into_iter().map(|(local, thread)| {
            let (mut calls, before) = thread.join().unwrap();
            calls.push((before, stamp(), format!("drop {local} - -")));
            calls
        });
        ended.collect()
    })
}

/// What the owner calls after a round.
fn between(table: &mut ThreadLocal<u64>, round: u64) -> Vec<Call> {
    let mut calls = Vec::new();
    if round % 4 == 3 {
        call(&mut calls, "clear -", || {
            table.clear();
            "- -".to_string()
        });
    }
    call(&mut calls, "iter_mut -", || {
        let walk = table.iter_mut();
        let mut line = format!("- {}", walk.size_hint().0);
        for value in walk {
            let written = fresh();
            write!(line, " {value}:{written}").unwrap();
            *value = written;
        }
        line
    });
    calls
}

/// Writes the calls of a thread.
fn print(out: &mut impl io::Write, thread: u64, calls: Vec<Call>) -> io::Result<()> {
    calls.iter().try_for_each(|(before, after, rest)| writeln!(out, "{before} {after} {thread} {rest}"))
}

fn main() -> io::Result<()> {
    let words: Vec<u64> = env::args().skip(1).map(|word| word.parse().expect("a number")).collect();
    let [asked, threads, seed] = words[..] else {
        panic!("usage: histories CALLS THREADS SEED");
    };
    let mut out = io::BufWriter::new(io::stdout().lock());
    for number in 0..(asked / (ROUNDS * CALLS)).max(1) {
        let capacity = [None, Some(4), Some(0), Some(21)][number as usize % 4];
        let mut table = capacity.map_or_else(ThreadLocal::new, ThreadLocal::with_capacity);
        writeln!(out, "table {}", capacity.map_or("-".to_string(), |capacity| capacity.to_string()))?;
        for round in 0..ROUNDS {
            writeln!(out, "round")?;
            let shared = &table;
            let first = seed * 1_000_003 + (number * ROUNDS + round) * 64;
            let lines = if number % 11 == 5 { crowd(shared, first) } else { lines(shared, threads, first) };
            for (thread, calls) in lines.into_iter().enumerate() {
                print(&mut out, thread as u64, calls)?;
            }
            print(&mut out, OWNER, between(&mut table, round))?;
        }
        let mut calls = Vec::new();
        call(&mut calls, "into_iter -", || {
            let walk = table.into_iter();
            let mut line = format!("- {}", walk.size_hint().0);
            for value in walk {
                write!(line, " {value}").unwrap();
            }
            line
        });
        print(&mut out, OWNER, calls)?;
    }
    out.flush()
}
