//! The baseline of `bench_turnstile`: the same work by four threads, in plain Rust.
//!
//! Arguments: `mutex` for one `std` mutex, or `tickets` for a mutex whose callers come in the order of drawn tickets, and look
//! and yield until theirs comes; the calls of each thread; the rounds of work in a call; the rounds of work that a thread
//! does between two calls.
use std::env;
use std::hint;
use std::sync::atomic::{AtomicU64, Ordering::SeqCst};
use std::sync::Mutex;
use std::thread;
use std::time::Instant;

const CALLERS: u32 = 4;
const SOON: u32 = 100;

struct Mark {
    caller: u32,
    value: u32,
}

struct Register {
    room: u32,
    marks: Vec<Mark>,
}

fn mixed(seed: u32, rounds: u32) -> u32 {
    let mut value = seed;
    for _ in 0..rounds {
        value = value.wrapping_mul(1_664_525).wrapping_add(1_013_904_223);
    }
    value
}

impl Register {
    fn apply(&mut self, caller: u32, seed: u32, rounds: u32) -> Option<u32> {
        let value = mixed(seed, rounds);
        if self.marks.len() < self.room as usize {
            self.marks.push(Mark { caller, value });
            return Some(value);
        }
        None
    }
}

#[derive(Default)]
struct Tickets {
    ticket: AtomicU64,
    serving: AtomicU64,
}

impl Tickets {
    fn enter(&self) {
        let ticket = self.ticket.fetch_add(1, SeqCst);
        let mut looks = 0u32;
        loop {
            let serving = self.serving.load(SeqCst);
            if serving == ticket {
                return;
            }
            if ticket.wrapping_sub(serving) == 1 && looks < SOON {
                hint::spin_loop();
            } else {
                thread::yield_now();
            }
            looks = looks.saturating_add(1);
        }
    }

    fn leave(&self) {
        self.serving.fetch_add(1, SeqCst);
    }
}

fn main() {
    let words: Vec<String> = env::args().skip(1).collect();
    let in_order = words[0] == "tickets";
    let numbers: Vec<u32> = words[1..].iter().map(|word| word.parse().unwrap()).collect();
    let (calls, rounds, between) = (numbers[0], numbers[1], numbers[2]);
    let room = calls * CALLERS;
    let register = Mutex::new(Register {
        room,
        marks: Vec::with_capacity(room as usize),
    });
    let tickets = Tickets::default();
    let start = Instant::now();
    thread::scope(|scope| {
        for caller in 0..CALLERS {
            let (register, tickets) = (&register, &tickets);
            scope.spawn(move || {
                for call in 0..calls {
                    let seed = mixed(call, between);
                    if in_order {
                        tickets.enter();
                    }
                    register.lock().unwrap().apply(caller, seed, rounds);
                    if in_order {
                        tickets.leave();
                    }
                }
            });
        }
    });
    let took = start.elapsed().as_nanos();
    let marks = register.into_inner().unwrap().marks;
    let sum = marks.iter().fold(0u32, |sum, mark| sum ^ mark.value ^ mark.caller);
    let each = took / (marks.len().max(1) as u128);
    println!("{} marks by {CALLERS} callers, {each} ns a call (check {sum})", marks.len());
}
