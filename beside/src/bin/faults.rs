//! The smallest calls that show where the Rust crate's documentation and comments go past its code.

use std::alloc::{GlobalAlloc, Layout, System};
use std::sync::atomic::{AtomicUsize, Ordering::SeqCst};
use std::sync::Barrier;
use std::thread;
use thread_local::opened::{self, Manager};
use thread_local::ThreadLocal;

/// Counts the requests for memory.
struct Counting;

static REQUESTS: AtomicUsize = AtomicUsize::new(0);

unsafe impl GlobalAlloc for Counting {
    unsafe fn alloc(&self, layout: Layout) -> *mut u8 {
        REQUESTS.fetch_add(1, SeqCst);
        System.alloc(layout)
    }

    unsafe fn realloc(&self, at: *mut u8, layout: Layout, size: usize) -> *mut u8 {
        REQUESTS.fetch_add(1, SeqCst);
        System.realloc(at, layout, size)
    }

    unsafe fn dealloc(&self, at: *mut u8, layout: Layout) {
        System.dealloc(at, layout)
    }
}

#[global_allocator]
static ALLOCATOR: Counting = Counting;

/// 'If less than the capacity threads access the thread local it will never reallocate': one thread
/// accesses a table of capacity 2, while three others, which don't, have the ids 0 to 2.
fn a_capacity_is_no_bound() {
    let mut table = ThreadLocal::<u64>::with_capacity(2);
    let before = opened::slots(&mut table);
    let (taken, done) = (Barrier::new(4), Barrier::new(4));
    let id = thread::scope(|scope| {
        for _ in 0..3 {
            scope.spawn(|| {
                opened::own_id();
                taken.wait();
                done.wait();
            });
        }
        let user = scope.spawn(|| {
            taken.wait();
            table.get_or(|| 7);
            let id = opened::own_id();
            done.wait();
            id
        });
        user.join().unwrap()
    });
    let after = opened::slots(&mut table);
    println!("with_capacity(2), used by one thread, whose id is {id}: {before} slots before, {after} after");
}

/// The number of values 'can be less than the real number of values, but is never more'.
fn the_number_is_more_than_the_values() {
    let table = ThreadLocal::new();
    opened::insert(&table, 0, 10);
    opened::insert(&table, 1, 20);
    let mut walk = table.into_iter();
    walk.next();
    println!("into_iter of two values, one moved out: {} left, the number is {}", walk.len(), opened::number(&walk));
}

/// An id is given back in a thread's destructor, where refused memory ends the process.
fn an_id_that_is_given_back_needs_memory() {
    let mut manager = Manager::new();
    for _ in 0..100 {
        manager.take();
    }
    let before = REQUESTS.load(SeqCst);
    for id in 0..100 {
        manager.give(id);
    }
    println!("100 ids given back: {} requests for memory", REQUESTS.load(SeqCst) - before);
}

fn main() {
    a_capacity_is_no_bound();
    the_number_is_more_than_the_values();
    an_id_that_is_given_back_needs_memory();
}
