//! The peer of `bench_shards`: the same claims and freeings in plain Rust, with one mutex round the whole table.
//!
//! `claims apart|one WORKERS ROUNDS`. Build with `rustc -O`; the text is that of `bench_shards`.

use std::sync::Mutex;
use std::thread;
use std::time::{Duration, Instant};

const SIZE: usize = 48;
const HORIZON: usize = 8192;
const CALLERS: u32 = 64;
const CALLS: u32 = 1024;

/// Some rows and columns in some steps, the last ones included.
#[derive(Clone, Copy)]
struct Set {
    rows: (usize, usize),
    columns: u64,
    steps: (usize, usize),
}

#[allow(dead_code)]
#[derive(Clone, Copy)]
enum Act {
    Claim(u32),
    Free(u32),
}

#[allow(dead_code)]
struct Entry {
    ticket: u32,
    caller: u32,
    act: Act,
    yes: bool,
}

/// The taken cells, a word for each row of a step, and what was called.
struct Table {
    words: Vec<u64>,
    entries: Vec<Entry>,
}

impl Set {
    /// The caller's own set: four rows and columns of its worker's quadrant in eight steps.
    fn of(apart: bool, worker: u32, caller: usize) -> Set {
        let quadrant = if apart { worker % 4 } else { 0 };
        let row = if quadrant < 2 { 8 } else { 32 };
        let column = if quadrant % 2 == 0 { 8 } else { 32 };
        let step = caller % 64 * 8;
        Set { rows: (row, row + 3), columns: 15 << column, steps: (step, step + 7) }
    }

    fn words(self) -> impl Iterator<Item = usize> {
        let (first, last) = self.rows;
        (self.steps.0..=self.steps.1).flat_map(move |step| (first..=last).map(move |row| step * SIZE + row))
    }
}

impl Table {
    fn new(calls: usize) -> Table {
        Table { words: vec![0; SIZE * HORIZON], entries: Vec::with_capacity(calls) }
    }

    fn enter(&mut self, caller: u32, act: Act, yes: bool) -> u32 {
        let ticket = self.entries.len() as u32;
        self.entries.push(Entry { ticket, caller, act, yes });
        ticket
    }

    fn claim(&mut self, caller: u32, set: Set) -> (u32, bool) {
        let yes = set.words().all(|at| self.words[at] & set.columns == 0);
        if yes {
            set.words().for_each(|at| self.words[at] |= set.columns);
        }
        (self.enter(caller, Act::Claim(caller), yes), yes)
    }

    /// Frees a claim that stands.
    fn free(&mut self, caller: u32, set: Set, ticket: u32) {
        set.words().for_each(|at| self.words[at] &= !set.columns);
        self.enter(caller, Act::Free(ticket), true);
    }
}

fn make_calls(table: &Mutex<Table>, apart: bool, worker: u32, caller: u32) {
    let set = Set::of(apart, worker, caller as usize);
    for _ in 0..CALLS / 2 {
        let (ticket, yes) = table.lock().unwrap().claim(caller, set);
        if yes {
            table.lock().unwrap().free(caller, set, ticket);
        }
    }
}

/// A worker makes the calls of its callers, one caller after the other.
fn run(table: &Mutex<Table>, apart: bool, worker: u32, size: u32) {
    let first = worker * size;
    for caller in first..CALLERS.min(first + size) {
        make_calls(table, apart, worker, caller);
    }
}

fn one_round(apart: bool, workers: u32) -> Duration {
    let size = CALLERS.div_ceil(workers.clamp(1, CALLERS));
    let table = Mutex::new(Table::new((CALLERS * CALLS) as usize));
    let start = Instant::now();
    thread::scope(|scope| {
        for worker in 0..CALLERS.div_ceil(size) {
            let table = &table;
            scope.spawn(move || run(table, apart, worker, size));
        }
    });
    start.elapsed()
}

fn main() {
    let words: Vec<String> = std::env::args().skip(1).collect();
    let [way, workers, rounds] = &words[..] else {
        panic!("claims apart|one WORKERS ROUNDS");
    };
    let (workers, rounds): (u32, u32) = (workers.parse().unwrap(), rounds.parse().unwrap());
    let time: Duration = (0..rounds).map(|_| one_round(way == "apart", workers)).sum();
    let calls = u128::from(CALLERS) * u128::from(CALLS) * u128::from(rounds);
    println!("{calls} calls, {} ns a call", time.as_nanos() / calls.max(1));
}
