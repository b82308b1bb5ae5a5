//! The same calls in plain Rust: on an owned book, and on a `Mutex` round it by 1, 2 and 4 threads.

use std::collections::HashMap;
use std::sync::Mutex;
use std::thread;
use std::time::Instant;

const CALLS: u64 = 2_000_000;

#[allow(dead_code)]
enum Why {
    Bound,
    Branch { mode: u8, cites: Vec<u64> },
    Swap { cite: u64, out_task: u32, in_task: u32 },
}

#[allow(dead_code)]
struct Entry {
    set: [u64; 16],
    most: u32,
    cycle: u64,
    why: Why,
}

#[allow(dead_code)]
enum LogItem {
    Added(u64),
    Known { id: u64, most: u32 },
}

fn next(state: u64) -> u64 {
    state
        .wrapping_mul(6_364_136_223_846_793_005)
        .wrapping_add(1_442_695_040_888_963_407)
}

fn set_of(number: u64) -> [u64; 16] {
    let mut set = [0; 16];
    let mut state = next(number ^ 0x5555_5555);
    for _ in 0..8 {
        state = next(state);
        let task = (state >> 33) % 1024;
        set[(task / 64) as usize] |= 1 << (task % 64);
    }
    set
}

// An entry, where the times of its set are more than none.
fn entry_of(times: &[u64], set: [u64; 16]) -> Option<Entry> {
    let mut sum = 0;
    for (word, bits) in set.iter().enumerate() {
        let mut left = *bits;
        while left != 0 {
            sum += times[word * 64 + left.trailing_zeros() as usize];
            left &= left - 1;
        }
    }
    if sum == 0 {
        return None;
    }
    Some(Entry {
        set,
        most: 0,
        cycle: 1,
        why: Why::Bound,
    })
}

fn drawn(number: u64, entries: u64) -> (bool, u64) {
    if number % 10 == 9 {
        return (true, entries + number);
    }
    (false, (next(number) >> 20) % entries)
}

#[derive(Default)]
struct Book {
    entries: Vec<Entry>,
    index: HashMap<[u64; 16], Vec<u32>>,
    log: Vec<LogItem>,
}

impl Book {
    fn look(&self, set: &[u64; 16], most: u32, cycle: u64) -> Option<u32> {
        let numbers = self.index.get(set)?;
        numbers.iter().rev().copied().find(|id| {
            let entry = &self.entries[*id as usize];
            most <= entry.most && cycle <= entry.cycle
        })
    }

    fn publish(&mut self, step: Entry) -> bool {
        if let Some(id) = self.look(&step.set, step.most, step.cycle) {
            self.log.push(LogItem::Known {
                id: u64::from(id),
                most: step.most,
            });
            return false;
        }
        let id = self.entries.len();
        self.index.entry(step.set).or_default().push(id as u32);
        self.entries.push(step);
        self.log.push(LogItem::Added(id as u64));
        true
    }
}

fn book_with(times: &[u64], entries: u64) -> Book {
    let mut book = Book::default();
    for number in 0..entries {
        if let Some(step) = entry_of(times, set_of(number)) {
            book.publish(step);
        }
    }
    book
}

fn call_own(book: &mut Book, times: &[u64], number: u64, entries: u64) -> u64 {
    let (publishes, set) = drawn(number, entries);
    if publishes {
        if let Some(step) = entry_of(times, set_of(set)) {
            book.publish(step);
        }
        return 0;
    }
    u64::from(book.look(&set_of(set), 0, 1).is_some())
}

fn call_shared(book: &Mutex<Book>, times: &[u64], number: u64, entries: u64) -> u64 {
    let (publishes, set) = drawn(number, entries);
    if publishes {
        if let Some(step) = entry_of(times, set_of(set)) {
            book.lock().unwrap().publish(step);
        }
        return 0;
    }
    let set = set_of(set);
    u64::from(book.lock().unwrap().look(&set, 0, 1).is_some())
}

fn time_all(times: &[u64], entries: u64) {
    let mut book = book_with(times, entries);
    let start = Instant::now();
    let mut found = 0;
    for number in 0..CALLS {
        found += call_own(&mut book, times, number, entries);
    }
    let spent = start.elapsed().as_nanos();
    println!("own-{entries} {CALLS} {spent} {found}");
    for threads in [1, 2, 4] {
        let book = Mutex::new(book_with(times, entries));
        let part = CALLS / threads;
        let start = Instant::now();
        let found: u64 = thread::scope(|scope| {
            let workers: Vec<_> = (0..threads)
                .map(|worker| {
                    let book = &book;
                    scope.spawn(move || {
                        let calls = worker * part..(worker + 1) * part;
                        calls.map(|number| call_shared(book, times, number, entries)).sum::<u64>()
                    })
                })
                .collect();
            workers.into_iter().map(|worker| worker.join().unwrap()).sum()
        });
        let spent = start.elapsed().as_nanos();
        println!("{threads}-threads-{entries} {CALLS} {spent} {found}");
    }
}

fn main() {
    let times = vec![1; 1024];
    time_all(&times, 10_000);
    time_all(&times, 1_000_000);
}
