//! The same walk over the loads of the same instances in plain Rust: sets of sixteen words; the sum, the tasks that are
//! ready and the places to go over are kept from load to load.

use std::time::Instant;

type Set = [u64; 16];

fn has(s: &Set, i: u32) -> bool {
    s[(i / 64) as usize] >> (i % 64) & 1 == 1
}

fn insert(s: &mut Set, i: u32) {
    s[(i / 64) as usize] |= 1 << (i % 64);
}

fn remove(s: &mut Set, i: u32) {
    s[(i / 64) as usize] &= !(1 << (i % 64));
}

fn minus(a: &Set, b: &Set) -> Set {
    std::array::from_fn(|k| a[k] & !b[k])
}

fn meet(a: &Set, b: &Set) -> Set {
    std::array::from_fn(|k| a[k] & b[k])
}

fn disjoint(a: &Set, b: &Set) -> bool {
    let mut all = 0;
    for k in 0..16 {
        all |= a[k] & b[k];
    }
    all == 0
}

fn least(s: &Set) -> Option<u32> {
    for k in 0..16 {
        if s[k] != 0 {
            return Some(64 * k as u32 + s[k].trailing_zeros());
        }
    }
    None
}

fn nearest(s: &Set, side: Side) -> Option<u32> {
    match side {
        Side::Front => least(s),
        Side::Back => greatest_below(s, 1024),
    }
}

struct Line {
    times: Vec<u64>,
    before: Vec<Set>,
    after: Vec<Set>,
    apart: Vec<Set>,
    order: Vec<u32>,
    ranks: Vec<u32>,
}

#[derive(Clone, Copy, PartialEq)]
enum Side {
    Front,
    Back,
}

impl Line {
    fn ahead(&self, side: Side, i: u32) -> &Set {
        match side {
            Side::Front => &self.before[i as usize],
            Side::Back => &self.after[i as usize],
        }
    }

    fn waiting(&self, side: Side, i: u32) -> &Set {
        match side {
            Side::Front => &self.after[i as usize],
            Side::Back => &self.before[i as usize],
        }
    }

    fn place_of(&self, side: Side, i: u32) -> u32 {
        match side {
            Side::Front => self.ranks[i as usize],
            Side::Back => self.order.len() as u32 - 1 - self.ranks[i as usize],
        }
    }

    fn task_at(&self, side: Side, place: u32) -> u32 {
        match side {
            Side::Front => self.order[place as usize],
            Side::Back => self.order[self.order.len() - 1 - place as usize],
        }
    }
}

#[derive(Clone, Copy)]
struct End {
    tasks: Set,
    free: Set,
    places: Set,
}

fn greatest_below(s: &Set, i: u32) -> Option<u32> {
    let at = (i / 64) as usize;
    if at < 16 {
        let word = s[at] & ((1 << (i % 64)) - 1);
        if word != 0 {
            return Some(64 * at as u32 + 63 - word.leading_zeros());
        }
    }
    for k in (0..at).rev() {
        if s[k] != 0 {
            return Some(64 * k as u32 + 63 - s[k].leading_zeros());
        }
    }
    None
}

fn add_ready(
    line: &Line,
    set: &Set,
    side: Side,
    tasks: &Set,
    candidates: Set,
    free: &mut Set,
    places: &mut Set,
) {
    if candidates == [0; 16] {
        return;
    }
    let absent = minus(set, tasks);
    let mut left = candidates;
    while let Some(i) = nearest(&left, side) {
        if disjoint(line.ahead(side, i), &absent) {
            insert(free, i);
            insert(places, line.place_of(side, i));
        }
        remove(&mut left, i);
        left = minus(&left, line.waiting(side, i));
    }
}

impl End {
    fn of(line: &Line, set: &Set, side: Side) -> End {
        let tasks = &[0; 16];
        let mut free = [0; 16];
        let mut places = [0; 16];
        add_ready(
            line,
            set,
            side,
            tasks,
            minus(set, tasks),
            &mut free,
            &mut places,
        );
        End {
            tasks: *tasks,
            free,
            places,
        }
    }

    fn give_up(&mut self, line: &Line, side: Side, i: u32) {
        remove(&mut self.tasks, i);
        let mut shut = meet(&self.free, line.waiting(side, i));
        self.free = minus(&self.free, line.waiting(side, i));
        while let Some(j) = least(&shut) {
            remove(&mut shut, j);
            remove(&mut self.places, line.place_of(side, j));
        }
        insert(&mut self.free, i);
    }

    fn take_in(&mut self, line: &Line, set: &Set, side: Side, i: u32) {
        insert(&mut self.tasks, i);
        remove(&mut self.free, i);
        let candidates = meet(line.waiting(side, i), set);
        add_ready(
            line,
            set,
            side,
            &self.tasks,
            candidates,
            &mut self.free,
            &mut self.places,
        );
    }
}

struct Walk {
    cycle: u64,
    both: bool,
    set: Set,
    sum: u64,
    front: End,
    back: End,
}

fn fits(line: &Line, left: u64, tasks: &Set, other: &Set, i: u32) -> bool {
    if line.times[i as usize] > left {
        return false;
    }
    let apart = &line.apart[i as usize];
    if *apart == [0; 16] {
        return true;
    }
    let mut all = 0;
    for k in 0..16 {
        all |= (tasks[k] | other[k]) & apart[k];
    }
    all == 0
}

fn advance(
    line: &Line,
    cycle: u64,
    set: &Set,
    side: Side,
    other: &Set,
    end: &mut End,
    sum: &mut u64,
) -> bool {
    let mut below = line.order.len() as u32;
    while let Some(place) = greatest_below(&end.places, below) {
        below = place;
        let i = line.task_at(side, place);
        if has(&end.tasks, i) {
            end.give_up(line, side, i);
            *sum -= line.times[i as usize];
        } else if !has(other, i) && fits(line, cycle - *sum, &end.tasks, other, i) {
            end.take_in(line, set, side, i);
            *sum += line.times[i as usize];
            return true;
        }
    }
    false
}

fn grows(line: &Line, left: u64, end: &End, other: &Set) -> bool {
    for k in 0..16 {
        let mut word = end.free[k];
        while word != 0 {
            let i = 64 * k as u32 + word.trailing_zeros();
            word &= word - 1;
            if !has(other, i) && fits(line, left, &end.tasks, other, i) {
                return true;
            }
        }
    }
    false
}

impl Walk {
    #[inline(never)]
    fn step(&mut self, line: &Line) -> Option<(Set, Set)> {
        if self.both
            && advance(
                line,
                self.cycle,
                &self.set,
                Side::Back,
                &self.front.tasks,
                &mut self.back,
                &mut self.sum,
            )
        {
            return Some((self.front.tasks, self.back.tasks));
        }
        if advance(
            line,
            self.cycle,
            &self.set,
            Side::Front,
            &self.back.tasks,
            &mut self.front,
            &mut self.sum,
        ) {
            return Some((self.front.tasks, self.back.tasks));
        }
        None
    }

    #[inline(never)]
    fn full(&self, line: &Line) -> bool {
        let left = self.cycle - self.sum;
        !grows(line, left, &self.front, &self.back.tasks)
            && !(self.both && grows(line, left, &self.back, &self.front.tasks))
    }
}

fn next(state: u64) -> u64 {
    state
        .wrapping_mul(6_364_136_223_846_793_005)
        .wrapping_add(1_442_695_040_888_963_407)
}

fn arcs_of(n: u32, shape: &str) -> Vec<(u32, u32)> {
    let mut arcs = Vec::new();
    let mut state = 1;
    let arcs_each = match shape {
        "sparse" => 1,
        "dense" => 6,
        _ => 1,
    };
    for i in 1..n {
        for _ in 0..arcs_each {
            state = next(state);
            let reach = match shape {
                "sparse" => 40,
                "dense" => 12,
                _ => i,
            };
            let back = 1 + ((state >> 33) % u64::from(reach.min(i))) as u32;
            arcs.push((i - back, i));
        }
    }
    arcs
}

fn line_of(n: u32, shape: &str) -> Line {
    let mut times = Vec::new();
    let mut state = 7;
    for _ in 0..n {
        state = next(state);
        times.push(1 + (state >> 33) % 1000);
    }
    let arcs = arcs_of(n, shape);
    let mut before = vec![[0; 16]; n as usize];
    for &(i, j) in &arcs {
        insert(&mut before[j as usize], i);
    }
    for j in 0..n as usize {
        let direct = before[j];
        for i in 0..n {
            if has(&direct, i) {
                let row = before[i as usize];
                for k in 0..16 {
                    before[j][k] |= row[k];
                }
            }
        }
    }
    let mut after = vec![[0; 16]; n as usize];
    for j in 0..n {
        for i in 0..n {
            if has(&before[j as usize], i) {
                insert(&mut after[i as usize], j);
            }
        }
    }
    // arcs lead from lesser to greater numbers, so the ranks are the numbers
    Line {
        times,
        before,
        after,
        apart: vec![[0; 16]; n as usize],
        order: (0..n).collect(),
        ranks: (0..n).collect(),
    }
}

const MOST: u64 = 2_000_000;

fn main() {
    for shape in ["sparse", "dense", "tree"] {
        for n in [50, 100, 200, 1024] {
            for both in [false, true] {
                for cycle in [2000u64, 5000] {
                    let line = line_of(n, shape);
                    let set: Set = std::array::from_fn(|k| {
                        let lo = 64 * k as u32;
                        if n >= lo + 64 {
                            u64::MAX
                        } else if n > lo {
                            (1 << (n - lo)) - 1
                        } else {
                            0
                        }
                    });
                    let start = Instant::now();
                    let mut walk = Walk {
                        cycle,
                        both,
                        set,
                        sum: 0,
                        front: End::of(&line, &set, Side::Front),
                        back: if both {
                            End::of(&line, &set, Side::Back)
                        } else {
                            End {
                                tasks: [0; 16],
                                free: [0; 16],
                                places: [0; 16],
                            }
                        },
                    };
                    let (mut loads, mut full, mut mix) = (0u64, 0u64, 0u64);
                    while loads < MOST {
                        let Some((front, back)) = walk.step(&line) else {
                            break;
                        };
                        loads += 1;
                        let marks = has(&front, n - 1) as u64 + 2 * has(&back, 0) as u64;
                        mix = next(mix).wrapping_add(walk.sum).wrapping_add(marks);
                        if walk.full(&line) {
                            full += 1;
                        }
                    }
                    let spent = start.elapsed().as_nanos();
                    let kind = if both { "u" } else { "straight" };
                    println!("{shape} {kind} {n} {cycle} {loads} {full} {mix} {spent}");
                }
            }
        }
    }
}
