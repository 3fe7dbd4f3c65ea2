//! The peer of `bench_manager`: the same turns of a day, in plain Rust, over one book behind one mutex, which each caller holds
//! while the book follows its crossing.
//!
//! `book CALLERS TURNS`. The book is that of a program of the same rules, whose sources `build.sh` is given; its text is that of
//! `bench_manager`.

#![allow(dead_code)]

mod book;
mod crossing;
mod layout;
mod line;
mod message;
mod timeline;

use book::Book;
use layout::{Builder, Layout};
use line::{Grid, PolicyKind, Shape, Times};
use message::{Body, Message, Params, Reply, Turn};
use std::sync::Mutex;
use std::sync::atomic::{AtomicU32, AtomicU64, Ordering};
use std::thread;
use std::time::Instant;

const CALLS: u32 = 4;
const GAP: u32 = 40;

fn line(x0: u32, y0: u32, x1: u32, y1: u32) -> Shape {
    Shape::Line { x0, y0, x1, y1, m: 240 }
}

fn curve(from: (u32, u32), by: (u32, u32), to: (u32, u32), m: u32) -> Shape {
    Shape::Curve { x0: from.0, y0: from.1, x1: by.0, y1: by.1, x2: to.0, y2: to.1, m }
}

/// The twelve lanes, three from each side: left, straight, right.
fn paths() -> [Shape; 12] {
    [
        curve((0, 10500), (13500, 10500), (13500, 24000), 280),
        line(0, 7500, 24000, 7500),
        curve((0, 4500), (4500, 4500), (4500, 0), 95),
        curve((13500, 0), (13500, 13500), (0, 13500), 280),
        line(16500, 0, 16500, 24000),
        curve((19500, 0), (19500, 4500), (24000, 4500), 95),
        curve((24000, 13500), (10500, 13500), (10500, 0), 280),
        line(24000, 16500, 0, 16500),
        curve((24000, 19500), (19500, 19500), (19500, 24000), 95),
        curve((10500, 24000), (10500, 10500), (24000, 10500), 280),
        line(7500, 24000, 7500, 0),
        curve((4500, 24000), (4500, 19500), (0, 19500), 95),
    ]
}

fn turn_of(lane: u32) -> Turn {
    [Turn::Left, Turn::Straight, Turn::Right][lane as usize % 3]
}

fn twelve_lanes() -> Layout {
    let grid = Grid { side: 24000, n: 48, spacing: 100, fixed: 250, half: 1200, spans: 8192 };
    let times = Times { horizon: 3000, longest: 100, clearance: 100, early: 2, late: 2, edge: 5 };
    let mut builder = Builder::new(grid, times, 12).unwrap();
    for (lane, path) in (0..).zip(paths()) {
        builder.add_move(lane, turn_of(lane.into()), &path).unwrap();
    }
    builder.add_policy(PolicyKind::Fcfs).unwrap();
    builder.finish().unwrap()
}

/// A number below 2^31 that looks random, and is the same each time.
fn number(turn: u32, part: u32) -> u32 {
    let seed = (u64::from(turn) << 3 | u64::from(part)).wrapping_mul(6_364_136_223_846_793_005);
    let mixed = (seed ^ seed >> 29).wrapping_mul(1_442_695_040_888_963_407);
    (mixed >> 33) as u32
}

fn params(turn: u32, part: u32) -> Params {
    let (drawn, lane) = (number(turn, part), number(turn, 0) % 12);
    Params {
        lane: lane as u8,
        turn: turn_of(lane),
        arrive: turn * GAP + 50 + drawn % 400,
        speed: 200 + drawn / 400 % 61,
        max_speed: 300,
        accel: 2,
        length: 4500,
        width: 1900,
        emergency: turn % 400 == 7,
    }
}

/// The message of a part of a turn, if there is one.
fn message(turn: u32, part: u32, held: Option<u32>) -> Option<Message> {
    let body = match (part, held) {
        (0, Some(id)) => Body::Done(id),
        (1, _) => Body::Request(params(turn, 1)),
        (2, Some(id)) if turn % 8 == 3 => Body::Change(id, params(turn, 2)),
        (3, Some(id)) if turn % 16 == 5 => Body::Cancel(id),
        _ => return None,
    };
    Some(Message { seq: turn * CALLS + part, body })
}

fn held_after(reply: Reply) -> Option<u32> {
    match reply {
        Reply::Confirm { id, .. } => Some(id),
        Reply::Reject { held, .. } => held,
        _ => None,
    }
}

/// The book, which goes from thread to thread.
struct Shared(Book);

// SAFETY: a book may share parts of its own by counts that aren't atomic. All of them are inside, none is handed out by a call,
// and the mutex lets one thread in at a time.
unsafe impl Send for Shared {}

/// What all callers share beside the book.
struct Day {
    turns: u32,
    next: AtomicU32,
    confirms: AtomicU64,
}

impl Day {
    fn take(&self) -> Option<u32> {
        let turn = self.next.fetch_add(1, Ordering::SeqCst);
        (turn < self.turns).then_some(turn)
    }
}

fn take_turns(book: &Mutex<Shared>, vehicle: u32, day: &Day) {
    let mut held = None;
    while let Some(turn) = day.take() {
        for part in 0..CALLS {
            let Some(message) = message(turn, part, held) else { continue };
            let reply = book.lock().unwrap().0.serve(vehicle, turn * GAP, &message);
            day.confirms.fetch_add(matches!(reply, Reply::Confirm { .. }).into(), Ordering::Relaxed);
            held = held_after(reply);
        }
    }
}

fn main() {
    let words: Vec<String> = std::env::args().skip(1).collect();
    let [callers, turns] = &words[..] else { panic!("book CALLERS TURNS") };
    let (callers, turns): (u32, u32) = (callers.parse().unwrap(), turns.parse().unwrap());
    let book = Mutex::new(Shared(Book::open(twelve_lanes(), callers)));
    let day = Day { turns, next: AtomicU32::new(0), confirms: AtomicU64::new(0) };
    let start = Instant::now();
    thread::scope(|scope| {
        for vehicle in 0..callers {
            let (book, day) = (&book, &day);
            scope.spawn(move || take_turns(book, vehicle, day));
        }
    });
    let time = start.elapsed().as_nanos();
    let calls = book.lock().unwrap().0.entries();
    let each = time / u128::from(calls.max(1));
    println!("{calls} calls, {} Confirms, {each} ns a call", day.confirms.into_inner());
}
