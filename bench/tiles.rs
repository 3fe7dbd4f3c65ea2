//! The table of taken cells in plain Rust, for comparison: `rustc -O bench/tiles.rs -o tiles && ./tiles 10000`.

use std::time::Instant;

#[derive(Clone, Copy)]
struct Span {
    step: u32,
    row: u8,
    mask: u64,
}

struct Table {
    words: Vec<u64>,
    size: usize,
    horizon: u32,
    now: u32,
}

impl Table {
    fn new(size: usize, horizon: u32) -> Table {
        Table {
            words: vec![0; size * horizon as usize],
            size,
            horizon,
            now: 0,
        }
    }

    fn has_step(&self, step: u32) -> bool {
        self.now <= step && step < self.now + self.horizon
    }

    fn page(&self, step: u32) -> usize {
        (step % self.horizon) as usize * self.size
    }

    #[inline(never)]
    fn first_taken(&self, spans: &[Span], own: Option<&[Span]>) -> Option<(u32, u8, u8)> {
        let mut step = 0;
        let mut page = 0;
        for span in spans {
            if span.step != step {
                step = span.step;
                page = self.page(step);
            }
            if !self.has_step(step) {
                continue;
            }
            let mut hit = self.words[page + span.row as usize] & span.mask;
            if hit != 0 {
                if let Some(own) = own {
                    if let Ok(at) = own.binary_search_by_key(&(step, span.row), |s| (s.step, s.row)) {
                        hit &= !own[at].mask;
                    }
                }
                if hit != 0 {
                    return Some((step, span.row, hit.trailing_zeros() as u8));
                }
            }
        }
        None
    }

    #[inline(never)]
    fn claim(&mut self, spans: &[Span]) {
        let mut step = 0;
        let mut page = 0;
        for span in spans {
            if span.step != step {
                step = span.step;
                page = self.page(step);
            }
            self.words[page + span.row as usize] |= span.mask;
        }
    }

    #[inline(never)]
    fn release(&mut self, spans: &[Span]) {
        for span in spans {
            if self.has_step(span.step) {
                let page = self.page(span.step);
                self.words[page + span.row as usize] &= !span.mask;
            }
        }
    }
}

fn main() {
    let rounds: u64 = std::env::args().nth(1).map_or(1, |word| word.parse().unwrap());
    let sheets: Vec<Vec<Span>> = (0..6)
        .map(|lane| {
            (0..1000u32)
                .map(|k| Span {
                    step: k / 7,
                    row: (k / 35 + k % 7) as u8,
                    mask: 0xff << (8 * lane),
                })
                .collect()
        })
        .collect();
    let mut table = Table::new(48, 256);
    let mut free = 0u64;
    let mut nanos = 0u64;
    for _ in 0..rounds {
        let start = Instant::now();
        for sheet in &sheets {
            if table.first_taken(sheet, None).is_none() {
                free += 1;
            }
            table.claim(sheet);
        }
        nanos += start.elapsed().as_nanos() as u64;
        for sheet in &sheets {
            table.release(sheet);
        }
    }
    println!("free sheets: {free}");
    println!("nanoseconds a sheet: {}", nanos / free.max(1));
}
