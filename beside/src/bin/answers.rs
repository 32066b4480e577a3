//! Reads a script of calls, one a line, makes them on the Rust crate, and prints a line for each
//! answer. `crates/thread_local_beside` does the same with the port. `script` makes scripts, and
//! says what the calls are.

use std::collections::BTreeMap;
use std::fmt::Write as _;
use std::io::{self, Read, Write as _};
use std::sync::atomic::{AtomicU64, Ordering::SeqCst};
use std::sync::mpsc::{channel, Receiver, Sender};
use std::sync::Arc;
use std::thread::{self, ScopedJoinHandle};
use thread_local::opened::{self, Manager};
use thread_local::ThreadLocal;

/// A value that counts its drop.
struct Counted {
    value: u64,
    drops: Arc<AtomicU64>,
}

impl Drop for Counted {
    fn drop(&mut self) {
        self.drops.fetch_add(1, SeqCst);
    }
}

type Table = ThreadLocal<Counted>;

/// A call: its name and its numbers.
struct Call<'a> {
    name: &'a str,
    first: Option<usize>,
    second: u64,
}

fn parse(line: &str) -> Call<'_> {
    let mut words = line.split(' ');
    let name = words.next().unwrap();
    let first = words.next().map(|word| word.parse().unwrap());
    let second = words.next().map_or(0, |word| word.parse().unwrap());
    Call { name, first, second }
}

fn new_table(capacity: Option<usize>) -> Table {
    capacity.map_or_else(ThreadLocal::new, ThreadLocal::with_capacity)
}

fn counted(value: u64, drops: &Arc<AtomicU64>) -> Counted {
    Counted { value, drops: drops.clone() }
}

fn shown(value: Option<&Counted>) -> String {
    value.map_or("none".to_string(), |counted| counted.value.to_string())
}

/// What a walk that gives so many values says at each step: whether its hint isn't its length, how
/// many are left, and the value.
fn walked<I: ExactSizeIterator>(mut walk: I, most: usize, value: impl Fn(I::Item) -> u64) -> String {
    let mut text = String::new();
    for _ in 0..most {
        let left = walk.len();
        if walk.size_hint() != (left, Some(left)) {
            text.push_str("hint ");
        }
        match walk.next() {
            Some(item) => write!(text, "{left}:{} ", value(item)).unwrap(),
            None => break,
        }
    }
    write!(text, "{}", walk.len()).unwrap();
    text
}

/// The calls of an owner of the table, who makes them alone.
fn own(table: &mut Table, call: &Call<'_>, drops: &Arc<AtomicU64>) -> String {
    let most = call.first.unwrap_or(0);
    match call.name {
        "insert" => opened::insert(table, most, counted(call.second, drops)).value.to_string(),
        "get" => shown(opened::get(table, most)),
        "slots" => opened::slots(table).to_string(),
        "iter_mut" => walked(table.iter_mut(), most, |there| {
            there.value += 1;
            there.value
        }),
        "into_iter" => {
            let table = std::mem::take(table);
            let text = walked(table.into_iter(), most, |value| value.value);
            format!("{text} dropped {}", drops.load(SeqCst))
        }
        "clear" => {
            table.clear();
            format!("dropped {}", drops.load(SeqCst))
        }
        "close" => {
            drop(std::mem::take(table));
            format!("dropped {}", drops.load(SeqCst))
        }
        name => panic!("no such call: {name}"),
    }
}

/// What a thread is told to do, and what it answers.
type Told = (String, u64);

fn thread_answers(table: &Table, drops: &Arc<AtomicU64>, told: Receiver<Told>, answers: Sender<String>) {
    answers.send(format!("{} {}", opened::own_id(), shown(table.get()))).unwrap();
    for (name, number) in told {
        let answer = match name.as_str() {
            "look" => shown(table.get()),
            "get_or" => shown(Some(table.get_or(|| counted(number, drops)))),
            "try" => shown(table.get_or_try(|| Ok::<_, ()>(counted(number, drops))).ok()),
            "fail" => match table.get_or_try(|| Err(number)) {
                Ok(there) => there.value.to_string(),
                Err(error) => format!("error {error}"),
            },
            name => panic!("no such call: {name}"),
        };
        answers.send(answer).unwrap();
    }
}

struct Baton<'scope> {
    tell: Sender<Told>,
    answers: Receiver<String>,
    thread: ScopedJoinHandle<'scope, ()>,
}

/// Makes the calls that threads make, each in its turn, up to one of the owner's. Answers how many
/// they are.
fn share(table: &Table, calls: &[Call<'_>], drops: &Arc<AtomicU64>, out: &mut impl io::Write) -> usize {
    thread::scope(|scope| {
        let mut threads = BTreeMap::new();
        for (made, call) in calls.iter().enumerate() {
            let number = call.first.unwrap_or(0);
            let answer = match call.name {
                "local" => {
                    let (tell, told) = channel();
                    let (say, answers) = channel();
                    let thread = scope.spawn(move || thread_answers(table, drops, told, say));
                    let baton = Baton { tell, answers, thread };
                    let answer = baton.answers.recv().unwrap();
                    threads.insert(number, baton);
                    answer
                }
                "look" | "get_or" | "try" | "fail" => {
                    let baton = &threads[&number];
                    baton.tell.send((call.name.to_string(), call.second)).unwrap();
                    baton.answers.recv().unwrap()
                }
                "leave" => {
                    let Baton { tell, answers: _, thread } = threads.remove(&number).unwrap();
                    drop(tell);
                    thread.join().unwrap();
                    "left".to_string()
                }
                "walk" => {
                    let values: Vec<_> = table.iter().map(|there| there.value.to_string()).collect();
                    values.join(" ")
                }
                _ => return made,
            };
            writeln!(out, "{answer}").unwrap();
        }
        calls.len()
    })
}

fn main() {
    let mut text = String::new();
    io::stdin().read_to_string(&mut text).unwrap();
    let calls: Vec<_> = text.lines().map(parse).collect();
    let mut out = io::BufWriter::new(io::stdout().lock());
    let mut manager = Manager::new();
    let mut table = ThreadLocal::new();
    let mut drops = Arc::new(AtomicU64::new(0));
    let mut at = 0;
    while at < calls.len() {
        at += share(&table, &calls[at..], &drops, &mut out);
        let Some(call) = calls.get(at) else { break };
        let answer = match call.name {
            "ids" => {
                manager = Manager::new();
                "ids".to_string()
            }
            "take" => manager.take().to_string(),
            "give" => {
                manager.give(call.first.unwrap());
                "given".to_string()
            }
            "table" => {
                drop(std::mem::replace(&mut table, new_table(call.first)));
                drops = Arc::new(AtomicU64::new(0));
                "table".to_string()
            }
            _ => own(&mut table, call, &drops),
        };
        writeln!(out, "{answer}").unwrap();
        at += 1;
    }
}
