//! The same entries in plain Rust: a vector of entries, a vector of log items, and a map from the words of a set to
//! the numbers of its entries.

use std::collections::HashMap;
use std::time::Instant;

const LOOKS: u64 = 2_000_000;

#[allow(dead_code)]
enum Why {
    Bound,
    Branch { mode: u8, cites: Vec<u64> },
    Swap { cite: u64, out_task: u32, in_task: u32 },
}

#[allow(dead_code)]
struct Entry {
    set: [u64; 16],
    most: u32,
    cycle: u64,
    why: Why,
}

#[allow(dead_code)]
enum LogItem {
    Added(u64),
    Known { id: u64, most: u32 },
}

fn next(state: u64) -> u64 {
    state
        .wrapping_mul(6_364_136_223_846_793_005)
        .wrapping_add(1_442_695_040_888_963_407)
}

fn set_of(number: u64) -> [u64; 16] {
    let mut set = [0; 16];
    let mut state = next(number ^ 0x5555_5555);
    for _ in 0..8 {
        state = next(state);
        let task = (state >> 33) % 1024;
        set[(task / 64) as usize] |= 1 << (task % 64);
    }
    set
}

#[derive(Default)]
struct Book {
    entries: Vec<Entry>,
    index: HashMap<[u64; 16], Vec<u32>>,
    log: Vec<LogItem>,
}

impl Book {
    fn look(&self, set: &[u64; 16], most: u32, cycle: u64) -> Option<u32> {
        let numbers = self.index.get(set)?;
        numbers.iter().rev().copied().find(|id| {
            let entry = &self.entries[*id as usize];
            most <= entry.most && cycle <= entry.cycle
        })
    }

    fn publish(&mut self, step: Entry) -> bool {
        if let Some(id) = self.look(&step.set, step.most, step.cycle) {
            self.log.push(LogItem::Known {
                id: u64::from(id),
                most: step.most,
            });
            return false;
        }
        let id = self.entries.len();
        self.index.entry(step.set).or_default().push(id as u32);
        self.entries.push(step);
        self.log.push(LogItem::Added(id as u64));
        true
    }
}

fn held() -> u64 {
    let text = std::fs::read_to_string("/proc/self/statm").unwrap_or_default();
    let pages = text.split(' ').nth(1).and_then(|word| word.parse::<u64>().ok());
    pages.unwrap_or(0) * 4096
}

fn time_book(entries: u64) {
    let mut book = Book::default();
    let empty = held();
    let start = Instant::now();
    let mut added = 0;
    for number in 0..entries {
        let step = Entry {
            set: set_of(number),
            most: 0,
            cycle: 1,
            why: Why::Bound,
        };
        if book.publish(step) {
            added += 1;
        }
    }
    let spent = start.elapsed().as_nanos();
    println!("publish-{entries} {entries} {spent} {added} {}", held().saturating_sub(empty));
    let rounds = LOOKS / entries;
    for _ in 0..3 {
        for (name, first) in [("look", 0), ("absent", entries)] {
            let start = Instant::now();
            let mut found = 0;
            for _ in 0..rounds {
                for number in 0..entries {
                    if book.look(&set_of(number + first), 0, 1).is_some() {
                        found += 1;
                    }
                }
            }
            let spent = start.elapsed().as_nanos();
            println!("{name}-{entries} {} {spent} {found} 0", rounds * entries);
        }
    }
}

fn main() {
    time_book(2_000_000);
    time_book(200_000);
    time_book(10_000);
}
