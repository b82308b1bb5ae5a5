//! The same operations and the same sets in plain Rust: sixteen words, a loop for each operation.

use std::time::Instant;

const TURNS: u32 = 10_000_000;
const WALKS: u32 = 200_000;

#[derive(Clone, Copy)]
struct TaskSet {
    words: [u64; 16],
}

impl TaskSet {
    fn empty() -> TaskSet {
        TaskSet { words: [0; 16] }
    }

    #[inline]
    fn with(&self, i: u32) -> TaskSet {
        let mut words = self.words;
        words[(i / 64) as usize] |= 1 << (i % 64);
        TaskSet { words }
    }

    #[inline]
    fn union(&self, other: &TaskSet) -> TaskSet {
        let mut words = [0; 16];
        for k in 0..16 {
            words[k] = self.words[k] | other.words[k];
        }
        TaskSet { words }
    }

    #[inline]
    fn minus(&self, other: &TaskSet) -> TaskSet {
        let mut words = [0; 16];
        for k in 0..16 {
            words[k] = self.words[k] & !other.words[k];
        }
        TaskSet { words }
    }

    #[inline]
    fn is_subset(&self, other: &TaskSet) -> bool {
        let mut rest = 0;
        for k in 0..16 {
            rest |= self.words[k] & !other.words[k];
        }
        rest == 0
    }

    #[inline]
    fn count(&self) -> u32 {
        let mut members = 0;
        for k in 0..16 {
            members += self.words[k].count_ones();
        }
        members
    }

    #[inline]
    fn least(&self) -> Option<u32> {
        for k in 0..16 {
            if self.words[k] != 0 {
                return Some(64 * k as u32 + self.words[k].trailing_zeros());
            }
        }
        None
    }
}

impl TaskSet {
    // Another tag: a product and a shift for each word up to the last that isn't 0.
    #[inline]
    fn tag(&self) -> u32 {
        let mut used = 16;
        while used > 0 && self.words[used - 1] == 0 {
            used -= 1;
        }
        let mut state = 0x243f_6a88_85a3_08d3u64;
        for k in 0..used {
            let product = u128::from(state ^ self.words[k]) * 0x1319_8a2e_0370_7345;
            state = product as u64 ^ (product >> 64) as u64;
        }
        state as u32
    }
}

#[derive(Clone, Copy)]
struct Sets {
    half: [TaskSet; 64],
    upper: [TaskSet; 64],
    late: [TaskSet; 64],
}

fn next(state: u64) -> u64 {
    state
        .wrapping_mul(6_364_136_223_846_793_005)
        .wrapping_add(1_442_695_040_888_963_407)
}

fn half_from(first: u32, tasks: u32, seed: u64) -> TaskSet {
    let mut set = TaskSet::empty();
    let mut state = seed;
    for i in first..tasks {
        state = next(state);
        if state >> 63 == 1 {
            set = set.with(i);
        }
    }
    set
}

fn sets_of(tasks: u32) -> Sets {
    let blank = [TaskSet::empty(); 64];
    let mut sets = Sets { half: blank, upper: blank, late: blank };
    for k in 0..64u32 {
        let seed = u64::from(k) + 1;
        let half = half_from(0, tasks, seed);
        let more = half_from(0, tasks, seed + 100);
        sets.half[k as usize] = half;
        sets.upper[k as usize] = if k % 2 == 0 { half.union(&more) } else { more };
        sets.late[k as usize] = half_from(k * tasks / 64, tasks, seed + 200);
    }
    sets
}

fn sum_of(sets: &[TaskSet; 64]) -> u64 {
    let mut sum = 0u64;
    for set in sets {
        for i in 0..1024 {
            if set.words[(i / 64) as usize] >> (i % 64) & 1 == 1 {
                sum = next(sum).wrapping_add(i);
            }
        }
    }
    sum
}

#[inline(never)]
fn union(sets: &Sets) -> u64 {
    let mut out = sets.half;
    for j in 0..TURNS {
        out[(j % 64) as usize] = sets.half[(j % 64) as usize].union(&sets.upper[(j / 64 % 64) as usize]);
    }
    sum_of(&out)
}

#[inline(never)]
fn minus(sets: &Sets) -> u64 {
    let mut out = sets.half;
    for j in 0..TURNS {
        out[(j % 64) as usize] = sets.half[(j % 64) as usize].minus(&sets.upper[(j / 64 % 64) as usize]);
    }
    sum_of(&out)
}

#[inline(never)]
fn is_subset(sets: &Sets) -> u64 {
    let mut sum = 0u64;
    for j in 0..TURNS {
        if sets.half[(j % 64) as usize].is_subset(&sets.upper[(j % 64) as usize]) {
            sum = sum.wrapping_add(u64::from(j));
        }
    }
    sum
}

#[inline(never)]
fn count(sets: &Sets) -> u64 {
    let mut sum = 0u64;
    for j in 0..TURNS {
        sum = sum.wrapping_add(u64::from(sets.half[(j % 64) as usize].count()));
    }
    sum
}

#[inline(never)]
fn least(sets: &Sets) -> u64 {
    let mut sum = 0u64;
    for j in 0..TURNS {
        if let Some(i) = sets.late[(j % 64) as usize].least() {
            sum = sum.wrapping_add(u64::from(i));
        }
    }
    sum
}

#[inline(never)]
fn iter(sets: &Sets) -> u64 {
    let mut sum = 0u64;
    for j in 0..WALKS {
        let set = &sets.half[(j % 64) as usize];
        for k in 0..16 {
            let mut word = set.words[k];
            while word != 0 {
                let i = 64 * k as u32 + word.trailing_zeros();
                word &= word - 1;
                sum = sum.wrapping_mul(3).wrapping_add(u64::from(i));
            }
        }
    }
    sum
}

#[inline(never)]
fn tag(sets: &Sets) -> u64 {
    let mut changes = 0u64;
    let mut last = 0u32;
    for j in 0..TURNS {
        let tag = sets.half[(j % 64) as usize].tag();
        if tag != last {
            changes += 1;
        }
        last = tag;
    }
    changes
}

fn main() {
    let operations: [(&str, u32, fn(&Sets) -> u64); 7] = [
        ("union", TURNS, union),
        ("minus", TURNS, minus),
        ("is_subset", TURNS, is_subset),
        ("count", TURNS, count),
        ("least", TURNS, least),
        ("iter", WALKS, iter),
        ("tag", TURNS, tag),
    ];
    for tasks in [60, 300, 1000] {
        let sets = sets_of(tasks);
        for (name, turns, run) in operations {
            let start = Instant::now();
            let sum = run(&sets);
            println!("{name} {tasks} {turns} {} {sum}", start.elapsed().as_nanos());
        }
    }
}
