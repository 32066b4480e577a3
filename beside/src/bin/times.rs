//! Times the Rust crate's calls with the workloads of `crates/thread_local_bench`: a line for each,
//! with its name and the nanoseconds of one operation, the least of several rounds. The arguments
//! are the number of rounds, and the name of one workload if no other is to run. What one operation
//! is stands there in `src/workload.rt`.
//!
//! With `growth ROUNDS` it times calls by one, two and four threads, and walks over 2^10 to 2^20
//! values. With `hold N` it makes a table of N values and drops it.
//!
//! All its code lies as many bytes further on as PLACE said when it was built.

use std::arch::global_asm;
use std::cell::Cell;
use std::hint::black_box;
use std::sync::{Barrier, Mutex};
use std::thread;
use std::time::{Duration, Instant};
use thread_local::opened::{self, Manager};
use thread_local::ThreadLocal;

global_asm!(
    r#".pushsection .text.unlikely.place, "axR", @progbits"#,
    concat!(".skip ", env!("PLACE")),
    ".popsection"
);

/// How many operations a round made, and in what time.
type Round = (u64, Duration);

/// Two tables, each with a count of 0 of this thread. Which of them is asked goes by the number's bits
/// that are in the mask, and so is known at run time alone.
fn hits(look: impl Fn(&ThreadLocal<Cell<u64>>)) -> Round {
    const TIMES: u64 = 50_000_000;
    let mask = black_box(1);
    let tables = [ThreadLocal::new(), ThreadLocal::new()];
    for table in &tables {
        table.get_or(|| Cell::new(0));
    }
    let start = Instant::now();
    for number in 0..TIMES {
        look(&tables[usize::from(number & mask != 0)]);
    }
    let time = start.elapsed();
    let sum: u64 = tables.into_iter().flatten().map(Cell::into_inner).sum();
    assert_eq!(sum, TIMES);
    (TIMES, time)
}

fn add_one(count: &Cell<u64>) {
    count.set(count.get().wrapping_add(1));
}

fn get_hit() -> Round {
    hits(|table| {
        if let Some(count) = table.get() {
            add_one(count);
        }
    })
}

fn get_or_hit() -> Round {
    hits(|table| add_one(table.get_or(|| Cell::new(0))))
}

fn new_first_drop() -> Round {
    const TIMES: u64 = 1_000_000;
    let start = Instant::now();
    for number in 0..TIMES {
        let table = ThreadLocal::new();
        table.get_or(|| number);
        black_box(&table);
    }
    (TIMES, start.elapsed())
}

/// What there is beside a `Local`: an id that the crate's manager gives out and takes back under a
/// lock. It looks at no slot.
fn local_and_drop() -> Round {
    const TIMES: u64 = 10_000_000;
    let manager = Mutex::new(Manager::new());
    let start = Instant::now();
    for _ in 0..TIMES {
        let id = manager.lock().unwrap().take();
        manager.lock().unwrap().give(id);
    }
    (TIMES, start.elapsed())
}

/// Makes so many tables, and publishes a value at each reserved id of theirs. The ids are counted, so
/// each is in a register. On the other side each is a `Local`'s, of which a thousand lie in the
/// processor's cache.
fn publish(count: usize, tables: usize) -> Round {
    let mut time = Duration::ZERO;
    for _ in 0..tables {
        let start = Instant::now();
        let table = ThreadLocal::with_capacity(count);
        for id in 0..count {
            opened::insert(&table, id, id as u64);
        }
        time += start.elapsed();
        black_box(&table);
    }
    ((count * tables) as u64, time)
}

/// What a table is filled with.
trait Value: Send {
    fn of(number: u64) -> Self;
    fn number(&mut self) -> &mut u64;
}

impl Value for u64 {
    fn of(number: u64) -> u64 {
        number
    }

    fn number(&mut self) -> &mut u64 {
        self
    }
}

impl Value for [u64; 8] {
    fn of(number: u64) -> [u64; 8] {
        [number; 8]
    }

    fn number(&mut self) -> &mut u64 {
        &mut self[0]
    }
}

const VALUES: usize = 1 << 20;
const LARGE: usize = 1 << 18;
const NEAR: usize = 1023;
const SPARSE: usize = 1 << 14;
const WALKS: usize = 20_000;
const TABLES: usize = 1000;

/// A table with so many values, each so many ids behind the one before it.
fn filled<T: Value>(count: usize, apart: usize) -> ThreadLocal<T> {
    let table = ThreadLocal::new();
    for number in 0..count {
        opened::insert(&table, number * apart, T::of(number as u64));
    }
    table
}

fn write_all<T: Value>(table: &mut ThreadLocal<T>) {
    for value in table.iter_mut() {
        let number = value.number();
        *number = number.wrapping_add(1);
    }
}

fn insert<T: Value>(count: usize) -> Round {
    let start = Instant::now();
    let table = filled::<T>(count, 1);
    let time = start.elapsed();
    black_box(&table);
    (count as u64, time)
}

/// Walks so often over a table that threads may share, and answers how long that took.
fn walk(table: &ThreadLocal<u64>, wanted: u64, walks: usize) -> Duration {
    let mut sum = 0u64;
    let start = Instant::now();
    for _ in 0..walks {
        for value in table {
            sum = sum.wrapping_add(*value);
        }
    }
    let time = start.elapsed();
    assert_eq!(sum, wanted * walks as u64);
    time
}

/// Reads each value of a table in so many walks. An operation is one value.
fn iter(count: usize, apart: usize, walks: usize) -> Round {
    let table = filled::<u64>(count, apart);
    let time = walk(&table, sum_below(count), walks);
    ((count * walks) as u64, time)
}

/// Walks over a table with reserved slots and four values. An operation is one walk.
fn iter_reserved() -> Round {
    const WALKS: usize = 10;
    (WALKS as u64, walk(&reserved(), sum_below(4), WALKS))
}

/// A table with many reserved slots and four values.
fn reserved() -> ThreadLocal<u64> {
    let table = ThreadLocal::with_capacity(1 << 20);
    for id in 0..4 {
        opened::insert(&table, id, id as u64);
    }
    table
}

fn sum_below(end: usize) -> u64 {
    (end * (end - 1) / 2) as u64
}

/// Writes each value of a table in so many walks, and answers the table too.
fn written<T: Value>(count: usize, apart: usize, walks: usize) -> (u64, Duration, ThreadLocal<T>) {
    let mut table = filled::<T>(count, apart);
    let start = Instant::now();
    for _ in 0..walks {
        write_all(&mut table);
    }
    let time = start.elapsed();
    ((count * walks) as u64, time, black_box(table))
}

fn iter_mut<T: Value>(count: usize, apart: usize, walks: usize) -> Round {
    let (operations, time, _) = written::<T>(count, apart, walks);
    (operations, time)
}

fn iter_mut_reserved() -> Round {
    let mut table = reserved();
    let start = Instant::now();
    for _ in 0..10 {
        write_all(&mut table);
    }
    (10, start.elapsed())
}

/// Writes each value of a small table, in so many walks. An operation is one value.
fn iter_mut_small(count: usize, walks: usize) -> Round {
    let (operations, time, table) = written::<u64>(count, 1, walks);
    assert_eq!(table.into_iter().sum::<u64>(), sum_below(count) + operations);
    (operations, time)
}

fn into_iter<T: Value>(count: usize, apart: usize, tables: usize) -> Round {
    let tables: Vec<_> = (0..tables).map(|_| filled::<T>(count, apart)).collect();
    let made = tables.len();
    let mut sum = 0u64;
    let start = Instant::now();
    for table in tables {
        for mut value in table {
            sum = sum.wrapping_add(*value.number());
        }
    }
    let time = start.elapsed();
    assert_eq!(sum, sum_below(count) * made as u64);
    ((count * made) as u64, time)
}

/// Tables that are made before each timed part: how many values each has, how many tables there are,
/// and how often they are made. Small tables are so few that they stay in the processor's cache, as
/// one does that was just used. A thousand tables of 1023 values don't.
#[derive(Clone, Copy)]
struct Batches {
    values: usize,
    tables: usize,
    times: usize,
}

const FRESH: Batches = Batches { values: 0, tables: 64, times: 8_000 };
const EIGHT: Batches = Batches { values: 8, tables: 64, times: 2_000 };
const LENGTHS: Batches = Batches { values: 8, tables: 16, times: 25_000 };
const STORM: Batches = Batches { values: 0, tables: 20_000, times: 1 };
const THOUSAND: Batches = Batches { values: 1023, tables: 1000, times: 2 };

impl Batches {
    /// A batch's tables. Each has its number at each of the first ids.
    fn filled<T: Send>(self, value: impl Fn(u64) -> T) -> Vec<ThreadLocal<T>> {
        let table = |_| {
            let table = ThreadLocal::new();
            for id in 0..self.values {
                opened::insert(&table, id, value(id as u64));
            }
            table
        };
        (0..self.tables).map(table).collect()
    }

    /// Runs the timed part on each batch of tables.
    fn timed<T: Send, A>(
        self,
        value: impl Fn(u64) -> T,
        mut part: impl FnMut(Vec<ThreadLocal<T>>) -> A,
    ) -> Duration {
        let mut time = Duration::ZERO;
        for _ in 0..self.times {
            let tables = black_box(self.filled(&value));
            let start = Instant::now();
            let left = part(tables);
            time += start.elapsed();
            drop(left);
        }
        time
    }

    /// The round in which each table was worked on once. An operation is one table.
    fn by_table(self, time: Duration) -> Round {
        ((self.tables * self.times) as u64, time)
    }

    /// The round of walks that met values with this sum. An operation is one value.
    fn by_value(self, sum: u64, time: Duration) -> Round {
        let tables = self.tables * self.times;
        assert_eq!(sum, sum_below(self.values) * tables as u64);
        ((self.values * tables) as u64, time)
    }
}

/// Publishes the first value of a table that was just made.
fn first_in_fresh() -> Round {
    let mut sum = 0;
    let mut time = Duration::ZERO;
    for _ in 0..FRESH.times {
        let tables = black_box(FRESH.filled(|number| number));
        let start = Instant::now();
        publish_one_each(&tables);
        time += start.elapsed();
        sum += tables.into_iter().flatten().sum::<u64>();
    }
    assert_eq!(sum, sum_below(FRESH.tables) * FRESH.times as u64);
    FRESH.by_table(time)
}

/// Publishes the number of each table in it, as this thread's first value there.
fn publish_one_each(tables: &[ThreadLocal<u64>]) {
    let mut number = 0;
    for table in tables {
        table.get_or(|| number);
        number += 1;
    }
}

/// Four threads publish their first values in tables that were just made, each thread in each table.
/// An operation is one value of each thread. All have their ids before one begins, so that no id is
/// used again.
fn first_4_threads() -> Round {
    let tables = black_box(STORM.filled(|number| number));
    let have_ids = Barrier::new(4);
    let round = by_threads(4, STORM.tables as u64, |_| {
        black_box(opened::own_id());
        have_ids.wait();
        publish_one_each(&tables);
    });
    assert_eq!(tables.into_iter().flatten().sum::<u64>(), 4 * sum_below(STORM.tables));
    round
}

fn into_iter_small(batches: Batches) -> Round {
    let mut sum = 0u64;
    let time = batches.timed(
        |number| number,
        |tables| {
            for table in tables {
                for value in table {
                    sum = sum.wrapping_add(value);
                }
            }
        },
    );
    batches.by_value(sum, time)
}

/// What there is beside `drain`: a walk that takes each value out of an `Option`.
fn drain_small(batches: Batches) -> Round {
    let mut sum = 0u64;
    let time = batches.timed(Some, |mut tables| {
        for table in &mut tables {
            for value in table.iter_mut() {
                if let Some(number) = value.take() {
                    sum = sum.wrapping_add(number);
                }
            }
        }
        tables
    });
    batches.by_value(sum, time)
}

fn clear_small(batches: Batches) -> Round {
    let time = batches.timed(
        |number| number,
        |mut tables| {
            for table in &mut tables {
                table.clear();
            }
            tables
        },
    );
    batches.by_table(time)
}

/// Asks walks over a batch's tables for their lengths, again and again. An operation is one walk.
fn len_small(batches: Batches) -> Round {
    let mut tables = batches.filled(|number| number);
    let mut sum = 0;
    let start = Instant::now();
    for _ in 0..batches.times {
        for table in black_box(&mut tables) {
            sum += table.iter_mut().size_hint().0;
        }
    }
    let time = start.elapsed();
    assert_eq!(sum, batches.values * batches.tables * batches.times);
    batches.by_table(time)
}

fn clear() -> Round {
    let mut table = filled::<u64>(VALUES, 1);
    let start = Instant::now();
    table.clear();
    (VALUES as u64, start.elapsed())
}

/// A manager with so many ids held.
fn holding(held: usize) -> Manager {
    let mut manager = Manager::new();
    for _ in 0..held {
        manager.take();
    }
    manager
}

const HELD: usize = 100_000;
const PAIRS: u64 = 5_000_000;

fn ids_few() -> Round {
    const TIMES: u64 = 10_000_000;
    let mut manager = Manager::new();
    let start = Instant::now();
    for _ in 0..TIMES {
        let id = manager.take();
        manager.give(id);
    }
    (TIMES, start.elapsed())
}

fn ids_many() -> Round {
    let mut manager = holding(HELD);
    let mut state = 1u64;
    let start = Instant::now();
    for _ in 0..PAIRS {
        state = state.wrapping_mul(6364136223846793005).wrapping_add(1442695040888963407);
        manager.give(((state >> 33) % HELD as u64) as usize);
        black_box(manager.take());
    }
    (PAIRS, start.elapsed())
}

fn ids_highest() -> Round {
    let mut manager = holding(HELD);
    let mut id = HELD - 1;
    let start = Instant::now();
    for _ in 0..PAIRS {
        manager.give(id);
        id = manager.take();
    }
    (PAIRS, start.elapsed())
}

/// Adds a number to a sum. It isn't inlined, so that each sum is stored.
#[inline(never)]
fn add_number(sum: &Cell<u64>, number: u64) {
    sum.set(sum.get().saturating_add(number));
}

/// Adds each `workers`-th number below `end`, from the worker's own on, to the thread's cell, where
/// `end` is a multiple of `workers`.
fn add(table: &ThreadLocal<Cell<u64>>, worker: u64, workers: u64, end: u64) {
    let sum = table.get_or(|| Cell::new(0));
    for turn in 0..end / workers.max(1) {
        let number = turn.wrapping_mul(workers).wrapping_add(worker);
        add_number(sum, number);
    }
}

fn tally_4_threads() -> Round {
    const END: u64 = 4_000_000;
    let table = ThreadLocal::new();
    let start = Instant::now();
    thread::scope(|scope| {
        for worker in 0..4 {
            let table = &table;
            scope.spawn(move || add(table, worker, 4, END));
        }
    });
    let time = start.elapsed();
    assert_eq!(table.into_iter().map(Cell::into_inner).sum::<u64>(), sum_below(END as usize));
    (END, time)
}

/// A counter of a table, which a thread counts in.
trait Counter: Send + Default {
    fn cell(&self) -> &Cell<u64>;
}

impl Counter for Cell<u64> {
    fn cell(&self) -> &Cell<u64> {
        self
    }
}

#[derive(Default)]
#[repr(align(128))]
struct Padded(Cell<u64>);

impl Counter for Padded {
    fn cell(&self) -> &Cell<u64> {
        &self.0
    }
}

/// Counts once. It isn't inlined, so that each count is stored.
#[inline(never)]
fn count(cell: &Cell<u64>) {
    cell.set(cell.get().wrapping_add(1));
}

/// Four threads count, each in its own counter, while this thread and two more have ids, so that
/// the counters' slots are neighbours.
fn counters_4_threads<T: Counter>() -> Round {
    const TIMES: u64 = 10_000_000;
    let table: ThreadLocal<T> = ThreadLocal::new();
    table.get_or_default();
    let (before, after) = (Barrier::new(3), Barrier::new(3));
    let time = thread::scope(|scope| {
        for _ in 0..2 {
            scope.spawn(|| {
                table.get_or_default();
                before.wait();
                after.wait();
            });
        }
        before.wait();
        let start = Instant::now();
        thread::scope(|scope| {
            for _ in 0..4 {
                scope.spawn(|| {
                    let counter = table.get_or_default();
                    // Four counts in each turn, so that where the loop lies in memory matters less.
                    for _ in 0..TIMES / 4 {
                        count(counter.cell());
                        count(counter.cell());
                        count(counter.cell());
                        count(counter.cell());
                    }
                });
            }
        });
        let time = start.elapsed();
        after.wait();
        time
    });
    assert_eq!(table.into_iter().map(|counter| counter.cell().get()).sum::<u64>(), 4 * TIMES);
    (TIMES, time)
}

/// What there is beside a `Pool`: each use takes an id under a lock, takes that id's value out, adds
/// one to it, puts it back, and gives the id back.
fn pool(threads: u64, uses: u64) -> Round {
    let manager = Mutex::new(Manager::new());
    let table: ThreadLocal<Cell<Option<u64>>> = ThreadLocal::new();
    let round = by_threads(threads, uses, |_| {
        for _ in 0..uses {
            let id = manager.lock().unwrap().take();
            let cell = match opened::get(&table, id) {
                Some(cell) => cell,
                None => opened::insert(&table, id, Cell::new(None)),
            };
            let value = cell.take().unwrap_or(0);
            cell.set(Some(value.wrapping_add(1)));
            manager.lock().unwrap().give(id);
        }
    });
    assert_eq!(table.into_iter().filter_map(Cell::into_inner).sum::<u64>(), threads * uses);
    round
}

/// A value that is taken out of its cell while it is used.
#[derive(Default)]
#[repr(align(128))]
struct Own(Cell<Option<u64>>);

/// Takes the thread's value out of its cell, adds one to it, and puts it back. It isn't inlined, so
/// that each use looks for the cell.
#[inline(never)]
fn use_own(table: &ThreadLocal<Own>) {
    let cell = &table.get_or_default().0;
    let value = cell.take().unwrap_or(0);
    cell.set(Some(value.wrapping_add(1)));
}

/// Four threads use their own values, as pools of `regex` and others do that are written on the
/// crate: no lock is taken.
fn own_value_4_threads() -> Round {
    const USES: u64 = 10_000_000;
    let table = ThreadLocal::new();
    let round = by_threads(4, USES, |_| {
        for _ in 0..USES {
            use_own(&table);
        }
    });
    assert_eq!(table.into_iter().filter_map(|own| own.0.into_inner()).sum::<u64>(), 4 * USES);
    round
}

fn thread_come_and_go() -> Round {
    const TIMES: u64 = 2_000;
    let table = ThreadLocal::new();
    let start = Instant::now();
    for _ in 0..TIMES {
        thread::scope(|scope| {
            scope.spawn(|| add_one(table.get_or(|| Cell::new(0))));
        });
    }
    let time = start.elapsed();
    assert_eq!(table.into_iter().map(Cell::into_inner).sum::<u64>(), TIMES);
    (TIMES, time)
}

/// So many threads at once, each with its number. An operation is as many of each thread.
fn by_threads(threads: u64, operations: u64, work: impl Fn(u64) + Sync) -> Round {
    let start = Instant::now();
    thread::scope(|scope| {
        for thread in 0..threads {
            let work = &work;
            scope.spawn(move || work(thread));
        }
    });
    (operations, start.elapsed())
}

fn get_hit_by(threads: u64) -> Round {
    const FINDS: u64 = 10_000_000;
    let mask = black_box(1);
    let tables: [ThreadLocal<Padded>; 2] = [ThreadLocal::new(), ThreadLocal::new()];
    by_threads(threads, FINDS, |_| {
        for table in &tables {
            table.get_or_default();
        }
        for number in 0..FINDS {
            if let Some(counter) = tables[usize::from(number & mask != 0)].get() {
                add_one(counter.cell());
            }
        }
    })
}

fn tally_by(threads: u64) -> Round {
    const NUMBERS: u64 = 16_000_000;
    let table = ThreadLocal::new();
    by_threads(threads, NUMBERS, |thread| add(&table, thread, threads, NUMBERS))
}

fn local_and_drop_by(threads: u64, pairs: u64) -> Round {
    let manager = Mutex::new(Manager::new());
    by_threads(threads, pairs, |_| {
        for _ in 0..pairs {
            let id = manager.lock().unwrap().take();
            manager.lock().unwrap().give(id);
        }
    })
}

/// Each thread publishes at every so-manieth id.
fn publish_by(threads: u64) -> Round {
    let table = ThreadLocal::with_capacity(VALUES);
    by_threads(threads, VALUES as u64 / threads, |thread| {
        for turn in 0..VALUES / threads as usize {
            let id = turn * threads as usize + thread as usize;
            opened::insert(&table, id, turn as u64);
        }
    })
}

/// Measures each call at each of its sizes.
fn growth(rounds: u32) {
    let report = |name: &str, size: u64, round: &dyn Fn() -> Round| {
        println!("{name} {size} {:.3}", least(rounds, round));
    };
    for threads in [1, 2, 4] {
        report("get_hit", threads, &|| get_hit_by(threads));
        report("tally", threads, &|| tally_by(threads));
        report("local_and_drop", threads, &|| local_and_drop_by(threads, 1_000_000));
        report("publish", threads, &|| publish_by(threads));
    }
    for power in [10, 12, 14, 16, 18, 20] {
        let values = 1usize << power;
        let walks = VALUES / values;
        report("iter", values as u64, &|| iter(values, 1, walks));
        report("iter_mut", values as u64, &|| iter_mut::<u64>(values, 1, walks));
        report("into_iter", values as u64, &|| into_iter::<u64>(values, 1, walks));
    }
}

type Workload = (&'static str, fn() -> Round);

const ALL: [Workload; 46] = [
    ("first_in_fresh", first_in_fresh),
    ("new_first_drop", new_first_drop),
    ("iter_8", || iter(8, 1, 400_000)),
    ("iter_mut_8", || iter_mut_small(8, 400_000)),
    ("into_iter_8", || into_iter_small(EIGHT)),
    ("drain_8", || drain_small(EIGHT)),
    ("clear_8", || clear_small(EIGHT)),
    ("len_8", || len_small(LENGTHS)),
    ("iter_64", || iter(64, 1, 100_000)),
    ("iter_mut_64", || iter_mut_small(64, 100_000)),
    // Threads that wait for one another take longer for a use.
    ("pool_1", || pool(1, 800_000)),
    ("pool_2", || pool(2, 200_000)),
    ("pool_4", || pool(4, 50_000)),
    ("get_hit", get_hit),
    ("get_or_hit", get_or_hit),
    ("local_and_drop", local_and_drop),
    ("publish_1023", || publish(NEAR, TABLES)),
    ("iter_1023", || iter(NEAR, 1, WALKS)),
    ("iter_mut_1023", || iter_mut::<u64>(NEAR, 1, WALKS)),
    ("into_iter_1023", || into_iter::<u64>(NEAR, 1, TABLES)),
    ("clear_1023", || clear_small(THOUSAND)),
    ("publish", || publish(VALUES - 1, 1)),
    ("insert", || insert::<u64>(VALUES)),
    ("iter", || iter(VALUES, 1, 1)),
    ("iter_mut", || iter_mut::<u64>(VALUES, 1, 1)),
    ("into_iter", || into_iter::<u64>(VALUES, 1, 1)),
    ("clear", clear),
    ("insert_64_bytes", || insert::<[u64; 8]>(LARGE)),
    ("iter_mut_64_bytes", || iter_mut::<[u64; 8]>(LARGE, 1, 1)),
    ("into_iter_64_bytes", || into_iter::<[u64; 8]>(LARGE, 1, 1)),
    ("iter_sparse", || iter(SPARSE, 64, 10)),
    ("iter_mut_sparse", || iter_mut::<u64>(SPARSE, 64, 1)),
    ("into_iter_sparse", || into_iter::<u64>(SPARSE, 64, 1)),
    ("iter_reserved", iter_reserved),
    ("iter_mut_reserved", iter_mut_reserved),
    ("ids_few", ids_few),
    ("ids_many", ids_many),
    ("ids_highest", ids_highest),
    ("first_4_threads", first_4_threads),
    ("publish_4_threads", || publish_by(4)),
    ("local_and_drop_4_threads", || local_and_drop_by(4, 100_000)),
    ("own_value_4_threads", own_value_4_threads),
    ("tally_4_threads", tally_4_threads),
    ("counters_4_threads", counters_4_threads::<Cell<u64>>),
    ("counters_4_threads_padded", counters_4_threads::<Padded>),
    ("thread_come_and_go", thread_come_and_go),
];

/// The nanoseconds of one operation, in the round that took the least.
fn least(rounds: u32, round: impl Fn() -> Round) -> f64 {
    let times = (0..rounds.max(1)).map(|_| {
        let (operations, time) = round();
        time.as_nanos() as f64 / operations as f64
    });
    times.fold(f64::INFINITY, f64::min)
}

fn main() {
    let mut words = std::env::args().skip(1);
    let first = words.next().unwrap_or_default();
    let second = words.next();
    let number = || second.as_ref().and_then(|word| word.parse().ok()).unwrap_or(1);
    match first.as_str() {
        "growth" => return growth(number()),
        "hold" => return drop(black_box(filled::<u64>(number() as usize, 1))),
        _ => {}
    }
    let rounds = first.parse().unwrap_or(1);
    for (name, round) in ALL {
        if second.as_ref().is_none_or(|asked| asked == name) {
            println!("{name} {:.3}", least(rounds, round));
        }
    }
}
