//! The same search in plain Rust, made to be fast: it lists the same loads in the same order, closes the same ones, and
//! adds the same entries with the same cites as the proved one, and shares nothing with it but the lines.
//!
//! The loads of a frame are the nodes of a tree: below a load are those that have one more task, at a later place. So a
//! walk is a stack of nodes, one for each task of the load. A node keeps the tasks that are free, those of them that
//! are still to be added, the room, and the sizes and the key of the load; so a task that goes costs nothing but its
//! counters. A task that comes lowers a counter of each task that waits for it directly, and frees those at 0. The
//! tasks that fit into a room are one mask out of a table. What a load leaves is known by numbers that the load
//! changes: its time, its sizes, and its key, which is the exclusive or of the keys of its tasks. So a look costs one
//! place of a table, also after a swap. Heads and tails are kept from frame to frame, and a frame lists the tasks whose
//! chain may refute a rest, with the time that a load has to take from what is ahead of them, the greatest first.
//!
//! A load that is listed costs some passes over the words of a set, of which there are as many as the line needs (1, 2,
//! 5 or 16). One that leaves too much, and from which none goes on, costs one pass at most. Tasks are numbered along
//! their precedences, as on all lines here, so their ranks are their numbers; no two tasks are apart.

use std::cmp::Reverse;
use std::time::Instant;

type Set<const W: usize> = [u64; W];

const FRONT: usize = 0;
const BACK: usize = 1;

fn has<const W: usize>(s: &Set<W>, i: u32) -> bool {
    s[i as usize / 64] >> (i % 64) & 1 == 1
}

fn insert<const W: usize>(s: &mut Set<W>, i: u32) {
    s[i as usize / 64] |= 1 << (i % 64);
}

fn remove<const W: usize>(s: &mut Set<W>, i: u32) {
    s[i as usize / 64] &= !(1 << (i % 64));
}

fn meet<const W: usize>(a: &Set<W>, b: &Set<W>) -> Set<W> {
    std::array::from_fn(|k| a[k] & b[k])
}

fn count<const W: usize>(s: &Set<W>) -> u32 {
    s.iter().map(|word| word.count_ones()).sum()
}

fn is_within<const W: usize>(a: &Set<W>, b: &Set<W>) -> bool {
    (0..W).fold(0, |all, k| all | a[k] & !b[k]) == 0
}

fn members<const W: usize>(s: &Set<W>) -> impl Iterator<Item = u32> + '_ {
    (0..W).flat_map(move |k| {
        let mut word = s[k];
        std::iter::from_fn(move || {
            if word == 0 {
                return None;
            }
            let i = 64 * k as u32 + word.trailing_zeros();
            word &= word - 1;
            Some(i)
        })
    })
}

fn set_of<const W: usize>(tasks: &[u32]) -> Set<W> {
    let mut set = [0; W];
    tasks.iter().for_each(|&i| insert(&mut set, i));
    set
}

// Takes out the task at the last place: the greatest in front, the least at the back.
fn take_last<const W: usize>(s: &mut Set<W>, side: usize) -> Option<u32> {
    if side == FRONT {
        let k = (0..W).rev().find(|&k| s[k] != 0)?;
        let bit = 63 - s[k].leading_zeros();
        s[k] ^= 1 << bit;
        Some(64 * k as u32 + bit)
    } else {
        let k = (0..W).find(|&k| s[k] != 0)?;
        let bit = s[k].trailing_zeros();
        s[k] &= s[k] - 1;
        Some(64 * k as u32 + bit)
    }
}

/// Rows of tasks, one after the other.
struct Rows {
    starts: Vec<u32>,
    items: Vec<u32>,
}

impl Rows {
    fn of(rows: impl Iterator<Item = Vec<u32>>) -> Rows {
        let (mut starts, mut items) = (vec![0], Vec::new());
        for row in rows {
            items.extend(row);
            starts.push(items.len() as u32);
        }
        Rows { starts, items }
    }

    fn row(&self, i: u32) -> &[u32] {
        let (from, to) = (self.starts[i as usize], self.starts[i as usize + 1]);
        &self.items[from as usize..to as usize]
    }
}

/// The tasks by their times, and the mask of those that take at most so long.
struct Fits<const W: usize> {
    order: Vec<u32>,
    sorted: Vec<u64>,
    masks: Vec<Set<W>>,
    starts: Vec<u32>,
    shift: u32,
}

impl<const W: usize> Fits<W> {
    fn of(times: &[u64], cycle: u64) -> Fits<W> {
        let mut order: Vec<u32> = (0..times.len() as u32).collect();
        order.sort_by_key(|&i| times[i as usize]);
        let mut sorted: Vec<u64> = order.iter().map(|&i| times[i as usize]).collect();
        let mut masks = vec![[0; W]];
        for &i in &order {
            let mut mask = masks[masks.len() - 1];
            insert(&mut mask, i);
            masks.push(mask);
        }
        let shift = (64 - cycle.leading_zeros()).saturating_sub(12);
        let least = |room: u64| sorted.partition_point(|&time| time <= room) as u32;
        let starts = (0..=cycle >> shift).map(|k| least(k << shift)).collect();
        sorted.push(u64::MAX);
        Fits {
            order,
            sorted,
            masks,
            starts,
            shift,
        }
    }

    // The tasks that take at most `room`, which is at most a cycle.
    fn within(&self, room: u64) -> &Set<W> {
        let mut k = self.starts[(room >> self.shift) as usize] as usize;
        while self.sorted[k] <= room {
            k += 1;
        }
        &self.masks[k]
    }
}

/// A task: its time, what it counts for by its size, its key, and for each side, front and back, where those that wait
/// for it directly stand in the line's `waits`.
struct Task {
    time: u64,
    sizes: u64,
    key: u64,
    waits: [(u32, u32); 2],
}

impl Task {
    fn row<'a>(&self, waits: &'a [u32], side: usize) -> &'a [u32] {
        let (from, to) = self.waits[side];
        &waits[from as usize..to as usize]
    }
}

/// A line at a cycle. For each side, `ahead` are the tasks that have to stand at the side before a task does, `later`
/// those at later places, and `direct` those that wait for it directly.
struct Line<const W: usize> {
    u: bool,
    cycle: u64,
    tasks: Vec<Task>,
    waits: Vec<u32>,
    ahead: [Vec<Set<W>>; 2],
    later: [Vec<Set<W>>; 2],
    direct: [Vec<Set<W>>; 2],
    partners: Rows,
    has_partners: Set<W>,
    fits: Fits<W>,
}

fn next(state: u64) -> u64 {
    state
        .wrapping_mul(6_364_136_223_846_793_005)
        .wrapping_add(1_442_695_040_888_963_407)
}

// A number without a pattern for each number.
fn key_of(i: u64) -> u64 {
    let mut x = (i + 1).wrapping_mul(0x9e37_79b9_7f4a_7c15);
    x = (x ^ x >> 30).wrapping_mul(0xbf58_476d_1ce4_e5b9);
    x = (x ^ x >> 27).wrapping_mul(0x94d0_49bb_1331_11eb);
    x ^ x >> 31
}

// For each task but the first, the task from which its arc comes.
fn arcs_of(n: u32, shape: &str) -> Vec<(u32, u32)> {
    let mut state = 1;
    let mut arcs = Vec::new();
    for i in 1..n {
        state = next(state);
        let reach = if shape == "sparse" { 40 } else { i };
        let back = 1 + ((state >> 33) % u64::from(reach.min(i))) as u32;
        arcs.push((i - back, i));
    }
    arcs
}

// What is before each task, and what is after it.
fn closed<const W: usize>(n: u32, arcs: &[(u32, u32)]) -> [Vec<Set<W>>; 2] {
    let (mut before, mut after) = (vec![[0; W]; n as usize], vec![[0; W]; n as usize]);
    for &(i, j) in arcs {
        let row = before[i as usize];
        for k in 0..W {
            before[j as usize][k] |= row[k];
        }
        insert(&mut before[j as usize], i);
    }
    for j in 0..n {
        for i in members(&before[j as usize]) {
            insert(&mut after[i as usize], j);
        }
    }
    [before, after]
}

// Of each row those that are in no row of another of it: the direct ones.
fn direct<const W: usize>(rows: &[Set<W>]) -> Vec<Vec<u32>> {
    let is_direct = |row: &Set<W>, j: u32| !members(row).any(|k| has(&rows[k as usize], j));
    rows.iter()
        .map(|row| members(row).filter(|&j| is_direct(row, j)).collect())
        .collect()
}

// The tasks, and one after the other those that wait directly for each at each side.
fn tasks_of<const W: usize>(
    times: &[u64],
    cycle: u64,
    rows: &[Vec<Set<W>>; 2],
) -> (Vec<Task>, Vec<u32>) {
    let nexts = [direct(&rows[BACK]), direct(&rows[FRONT])];
    let (mut tasks, mut waits) = (Vec::new(), Vec::new());
    for (i, &time) in times.iter().enumerate() {
        let mut range = |side: usize| {
            let from = waits.len() as u32;
            waits.extend(&nexts[side][i]);
            (from, waits.len() as u32)
        };
        let (sizes, key, waits) = (
            size_of(cycle, time),
            key_of(i as u64),
            [range(FRONT), range(BACK)],
        );
        tasks.push(Task {
            time,
            sizes,
            key,
            waits,
        });
    }
    (tasks, waits)
}

// The first eight tasks that may stand in for each task.
fn partners_of<const W: usize>(times: &[u64], rows: &[Vec<Set<W>>; 2]) -> Rows {
    let n = times.len() as u32;
    let within = |rows: &[Set<W>], i: u32, j: u32| {
        let mut row = rows[j as usize];
        remove(&mut row, i);
        is_within(&row, &rows[i as usize])
    };
    let stands_in = |i: u32, j: u32| {
        i != j
            && times[j as usize] <= times[i as usize]
            && within(&rows[0], i, j)
            && within(&rows[1], i, j)
    };
    Rows::of((0..n).map(|i| (0..n).filter(|&j| stands_in(i, j)).take(8).collect()))
}

// What a task counts for by its size: above half a cycle, exactly half a cycle, and in sixths of a station.
fn size_of(cycle: u64, time: u64) -> u64 {
    let (thirds, cycles) = (3 * time, 2 * cycle);
    let sixths = 2 * u64::from(thirds >= cycle)
        + u64::from(thirds > cycle)
        + u64::from(thirds >= cycles)
        + 2 * u64::from(thirds > cycles);
    u64::from(2 * time > cycle) | u64::from(2 * time == cycle) << 16 | sixths << 32
}

// The stations that sizes need.
fn stations_of(sizes: u64) -> u64 {
    let (above, at, sixths) = (sizes & 0xffff, sizes >> 16 & 0xffff, sizes >> 32);
    (above + at.div_ceil(2)).max(sixths.div_ceil(6))
}

impl<const W: usize> Line<W> {
    fn of(n: u32, shape: &str, u: bool, cycle: u64) -> Line<W> {
        let mut state = 7;
        let mut draw = || {
            state = next(state);
            state
        };
        let times: Vec<u64> = (0..n).map(|_| 1 + (draw() >> 33) % 1000).collect();
        let ahead = closed(n, &arcs_of(n, shape));
        let range = |from: u32, to: u32| set_of(&(from..to).collect::<Vec<u32>>());
        let partners = partners_of(&times, &ahead);
        let is_some = |&i: &u32| !partners.row(i).is_empty();
        let has_partners = set_of(&(0..n).filter(is_some).collect::<Vec<u32>>());
        let (tasks, waits) = tasks_of(&times, cycle, &ahead);
        Line {
            u,
            cycle,
            ahead,
            later: [
                (0..n).map(|i| range(i + 1, n)).collect(),
                (0..n).map(|i| range(0, i)).collect(),
            ],
            direct: [FRONT, BACK].map(|side| {
                tasks
                    .iter()
                    .map(|task| set_of(task.row(&waits, side)))
                    .collect()
            }),
            partners,
            has_partners,
            fits: Fits::of(&times, cycle),
            tasks,
            waits,
        }
    }

    // The tasks that wait for a task at a side.
    fn waiting(&self, side: usize, i: u32) -> &Set<W> {
        &self.ahead[1 - side][i as usize]
    }

    // The tasks that wait directly for a task at a side.
    fn waits(&self, side: usize, i: u32) -> &[u32] {
        self.tasks[i as usize].row(&self.waits, side)
    }

    fn time(&self, i: u32) -> u64 {
        self.tasks[i as usize].time
    }

    fn time_of(&self, set: &Set<W>) -> u64 {
        members(set).map(|i| self.time(i)).sum()
    }

    fn all(&self) -> Set<W> {
        self.fits.masks[self.tasks.len()]
    }
}

#[allow(dead_code)]
enum Why {
    Branch {
        sides: [bool; 2],
        cites: (u32, u32),
    },
    Swap {
        cite: u32,
        out_task: u32,
        in_task: u32,
    },
}

#[allow(dead_code)]
struct Entry {
    most: u32,
    cycle: u64,
    why: Why,
}

#[derive(Clone, Copy)]
struct Slot {
    tag: u32,
    // One more than the number of the last entry of a set, or 0.
    last: u32,
}

/// Entries, and a table with a place for each set: as the search goes on, a set gets a later entry only for more
/// stations, so its last one answers if any does.
struct Book<const W: usize> {
    sets: Vec<Set<W>>,
    keys: Vec<u64>,
    entries: Vec<Entry>,
    cited: Vec<u32>,
    slots: Vec<Slot>,
    looks: u64,
}

impl<const W: usize> Book<W> {
    fn new() -> Book<W> {
        let slots = vec![Slot { tag: 0, last: 0 }; 1024];
        Book {
            sets: Vec::new(),
            keys: Vec::new(),
            entries: Vec::new(),
            cited: Vec::new(),
            slots,
            looks: 0,
        }
    }

    // The place of a set of this key, or the empty one where it would be.
    fn place(&self, key: u64, is_it: impl Fn(&Set<W>) -> bool) -> usize {
        let (tag, mask) = ((key >> 32) as u32, self.slots.len() - 1);
        let mut at = key as usize & mask;
        loop {
            let slot = self.slots[at];
            if slot.last == 0 || slot.tag == tag && is_it(&self.sets[slot.last as usize - 1]) {
                return at;
            }
            at = (at + 1) & mask;
        }
    }

    fn answer(&self, place: usize, most: u32) -> Option<u32> {
        let id = self.slots[place].last.checked_sub(1)?;
        (most <= self.entries[id as usize].most).then_some(id)
    }

    fn look(&mut self, key: u64, most: u32, is_it: impl Fn(&Set<W>) -> bool) -> Option<u32> {
        self.looks += 1;
        self.answer(self.place(key, is_it), most)
    }

    fn publish(&mut self, set: &Set<W>, key: u64, entry: Entry) -> u32 {
        let place = self.place(key, |other| other == set);
        if let Some(id) = self.answer(place, entry.most) {
            return id;
        }
        self.sets.push(*set);
        self.keys.push(key);
        self.entries.push(entry);
        let last = self.sets.len() as u32;
        self.slots[place] = Slot {
            tag: (key >> 32) as u32,
            last,
        };
        if 2 * self.sets.len() > self.slots.len() {
            self.grow();
        }
        last - 1
    }

    // A table of four times as many places.
    fn grow(&mut self) {
        self.slots = vec![Slot { tag: 0, last: 0 }; 4 * self.slots.len()];
        for id in 0..self.sets.len() {
            let (key, set) = (self.keys[id], &self.sets[id]);
            let place = self.place(key, |other| other == set);
            self.slots[place] = Slot {
                tag: (key >> 32) as u32,
                last: id as u32 + 1,
            };
        }
    }

    // How many entries are cited.
    fn cites(&self) -> usize {
        let cited = |entry: &Entry| match &entry.why {
            Why::Branch { cites, .. } => (cites.1 - cites.0) as usize,
            Why::Swap { .. } => 1,
        };
        self.entries.iter().map(cited).sum()
    }
}

/// A load of a frame, with all that is kept of it. The root of a frame is its load without a task.
#[derive(Clone)]
struct Node<const W: usize> {
    // The tasks that are free at each side, where the frame fills it, and those of them that are to be added still.
    free: [Set<W>; 2],
    left: [Set<W>; 2],
    // The time that is left, and the sizes and the key of the load.
    room: u64,
    sizes: u64,
    key: u64,
    // The task that came last, and its side.
    task: u32,
    side: usize,
    // Whether the counters of what waits for the task were lowered, and `free` is right.
    unlocked: bool,
}

impl<const W: usize> Node<W> {
    // Takes the next task that is to be added at a side, or on a U-line at the back and then in front.
    #[inline(always)]
    fn take_next<const U: bool>(&mut self, side: usize) -> Option<(u32, usize)> {
        match take_last(&mut self.left[side], side) {
            Some(task) => Some((task, side)),
            None if U => Some((take_last(&mut self.left[FRONT], FRONT)?, FRONT)),
            None => None,
        }
    }
}

/// A question: whether a set has a balance in so many stations.
struct Frame<const W: usize> {
    set: Set<W>,
    most: u32,
    sides: [bool; 2],
    // The place of its root, of its first cite and of its first chain; whether its chains were listed.
    root: usize,
    cites: usize,
    chains: usize,
    chained: bool,
    // Of the set: the time, the most room that a load may leave, the sizes, the key and the shortest task.
    total: u64,
    slack: u64,
    sizes: u64,
    key: u64,
    shortest: usize,
}

/// A task whose head and tail need too many stations beside a rest that has it, where the load took less than `need`
/// from what is ahead of it.
#[derive(Clone, Copy)]
struct Chain {
    need: u64,
    task: u32,
}

enum Sorted<const W: usize> {
    Closed,
    Covered(u32),
    Empty,
    Open(Set<W>),
}

struct Search<'a, const W: usize, const U: bool> {
    line: &'a Line<W>,
    book: Book<W>,
    units: u64,
    nodes: Vec<Node<W>>,
    top: usize,
    frames: Vec<Frame<W>>,
    cites: Vec<u32>,
    chains: Vec<Chain>,
    // For each side and task: how many that are directly ahead of it aren't taken at the side, and the time of all
    // that are ahead of it in the set of the frame in hand, with its own.
    counters: [Vec<u32>; 2],
    chain_times: [Vec<u64>; 2],
    // On a U-line, whether a task stands at a side.
    stands: Vec<bool>,
}

impl<'a, const W: usize, const U: bool> Search<'a, W, U> {
    fn new(line: &'a Line<W>, units: u64) -> Search<'a, W, U> {
        let n = line.tasks.len();
        let node = Node {
            free: [[0; W]; 2],
            left: [[0; W]; 2],
            room: 0,
            sizes: 0,
            key: 0,
            task: 0,
            side: FRONT,
            unlocked: true,
        };
        let mut counters = [vec![0; n], vec![0; n]];
        for side in [FRONT, BACK] {
            for i in 0..n as u32 {
                line.waits(side, i)
                    .iter()
                    .for_each(|&j| counters[side][j as usize] += 1);
            }
        }
        let chain_time =
            |side: usize, i: usize| line.tasks[i].time + line.time_of(&line.ahead[side][i]);
        Search {
            line,
            book: Book::new(),
            units,
            nodes: vec![node; 2 * n + 2],
            top: 0,
            frames: Vec::new(),
            cites: Vec::new(),
            chains: Vec::new(),
            counters,
            chain_times: [FRONT, BACK].map(|side| (0..n).map(|i| chain_time(side, i)).collect()),
            stands: vec![false; n],
        }
    }

    fn frame(&self) -> &Frame<W> {
        &self.frames[self.frames.len() - 1]
    }

    // Goes on to the next load that is full and that neither its time nor the sizes of its rest close. None after the
    // last load, and false where no unit is left for the next one.
    fn next_load(&mut self) -> Option<bool> {
        let (line, frame) = (self.line, self.frame());
        let (root, slack, most, sizes) = (frame.root, frame.slack, frame.most - 1, frame.sizes);
        let shortest = line.fits.sorted[frame.shortest];
        let first = usize::from(frame.sides[BACK]);
        loop {
            let node = &mut self.nodes[self.top];
            let Some((task, side)) = node.take_next::<U>(first) else {
                if self.top == root {
                    return None;
                }
                self.give_up();
                continue;
            };
            if self.units == 0 {
                return Some(false);
            }
            self.units -= 1;
            let of = &line.tasks[task as usize];
            let room = node.room - of.time;
            let within =
                room <= slack && stations_of(sizes - node.sizes - of.sizes) <= u64::from(most);
            if room < shortest && !within {
                continue;
            }
            if room < shortest {
                self.push(task, side, room);
                return Some(true);
            }
            let fits = line.fits.within(room);
            if !within && self.is_leaf(task, side, fits) {
                continue;
            }
            let (some, more) = self.take_in(task, side, room, fits);
            if within && !some {
                return Some(true);
            }
            if !more {
                self.give_up();
            }
        }
    }

    // Whether no load goes on from the one that has this task too, since no task that may be free then fits.
    #[inline(always)]
    fn is_leaf(&self, task: u32, side: usize, fits: &Set<W>) -> bool {
        let (line, old) = (self.line, &self.nodes[self.top]);
        let (later, waiting) = (
            &line.later[side][task as usize],
            &line.direct[side][task as usize],
        );
        let there = &old.free[1 - side];
        let mut more = 0;
        for k in 0..W {
            let also = if U && side == FRONT { there[k] } else { 0 };
            more |= fits[k] & ((old.free[side][k] | waiting[k]) & later[k] | also);
        }
        more == 0
    }

    // Puts the load that has one task more on the stack, as one from which none goes on.
    #[inline(always)]
    fn push(&mut self, task: u32, side: usize, room: u64) {
        let (below, above) = self.nodes.split_at_mut(self.top + 1);
        let (old, new) = (&below[self.top], &mut above[0]);
        let of = &self.line.tasks[task as usize];
        (new.task, new.side, new.room, new.unlocked) = (task, side, room, false);
        (new.sizes, new.key) = (old.sizes + of.sizes, old.key ^ of.key);
        new.left[side] = [0; W];
        if U {
            new.left[1 - side] = [0; W];
        }
        self.top += 1;
    }

    // Adds a task to the load. Whether some task may still join the new one, and whether one at a later place may.
    #[inline(always)]
    fn take_in(&mut self, task: u32, side: usize, room: u64, fits: &Set<W>) -> (bool, bool) {
        let line = self.line;
        self.push(task, side, room);
        self.unlock();
        let node = &mut self.nodes[self.top];
        let later = &line.later[side][task as usize];
        let (mut some, mut more) = (0, 0);
        for k in 0..W {
            let may = node.free[side][k] & fits[k];
            node.left[side][k] = may & later[k];
            (some, more) = (some | may, more | may & later[k]);
        }
        if U {
            for k in 0..W {
                let may = node.free[1 - side][k] & fits[k];
                node.left[1 - side][k] = if side == FRONT { may } else { 0 };
                (some, more) = (some | may, more | node.left[1 - side][k]);
            }
        }
        (some != 0, more != 0)
    }

    // Tells the tasks that wait for the last one that it came.
    #[inline(always)]
    fn unlock(&mut self) {
        let set = &self.frames[self.frames.len() - 1].set;
        let (below, above) = self.nodes.split_at_mut(self.top);
        let (old, node) = (&below[self.top - 1], &mut above[0]);
        let (task, side) = (node.task, node.side);
        node.unlocked = true;
        node.free[side] = old.free[side];
        remove(&mut node.free[side], task);
        if U {
            node.free[1 - side] = old.free[1 - side];
            remove(&mut node.free[1 - side], task);
            self.stands[task as usize] = true;
        }
        for &j in self.line.waits(side, task) {
            let counter = &mut self.counters[side][j as usize];
            *counter -= 1;
            if *counter == 0 && has(set, j) && !(U && self.stands[j as usize]) {
                insert(&mut node.free[side], j);
            }
        }
    }

    // Takes the last task from the load again.
    #[inline(always)]
    fn give_up(&mut self) {
        let node = &self.nodes[self.top];
        if node.unlocked {
            for &j in self.line.waits(node.side, node.task) {
                self.counters[node.side][j as usize] += 1;
            }
            if U {
                self.stands[node.task as usize] = false;
            }
        }
        self.top -= 1;
    }

    // The tasks of the load in hand of the frame in hand.
    fn load(&self) -> &[Node<W>] {
        &self.nodes[self.frame().root + 1..=self.top]
    }

    // Lists the tasks whose chain can refute a rest of the frame in hand.
    fn list_chains(&mut self) {
        let frame = &self.frames[self.frames.len() - 1];
        let (side, cycle) = (usize::from(frame.sides[BACK]), self.line.cycle);
        let most = u64::from(frame.most) - 1;
        for j in members(&frame.set) {
            let i = j as usize;
            let (here, there) = (self.chain_times[side][i], self.chain_times[1 - side][i]);
            if here + there < most * cycle + 2 {
                continue;
            }
            let allowed = (most + 1).saturating_sub(there.div_ceil(cycle)) * cycle;
            if here > allowed {
                self.chains.push(Chain {
                    need: here - allowed,
                    task: j,
                });
            }
        }
        self.chains[frame.chains..].sort_by_key(|chain| Reverse(chain.need));
    }

    // Whether a chain refutes what the load in hand leaves.
    fn is_chained(&mut self) -> bool {
        if U {
            return false;
        }
        if !self.frame().chained {
            self.list_chains();
            let at = self.frames.len() - 1;
            self.frames[at].chained = true;
        }
        let (line, frame, load) = (self.line, self.frame(), self.load());
        let side = usize::from(frame.sides[BACK]);
        let took = line.cycle - self.nodes[self.top].room;
        self.chains[frame.chains..].iter().any(|chain| {
            let ahead = &line.ahead[side][chain.task as usize];
            let time = |node: &Node<W>| line.time(node.task) * u64::from(has(ahead, node.task));
            (took < chain.need || load.iter().map(time).sum::<u64>() < chain.need)
                && !load.iter().any(|node| node.task == chain.task)
        })
    }

    // What is to be done with the load in hand.
    fn sort_load(&mut self) -> Sorted<W> {
        let frame = self.frame();
        let (mut rest, most) = (frame.set, frame.most - 1);
        let key = frame.key ^ self.nodes[self.top].key;
        for node in self.load() {
            remove(&mut rest, node.task);
        }
        if rest == [0; W] {
            return Sorted::Empty;
        }
        if most == 0 || self.is_chained() {
            return Sorted::Closed;
        }
        if let Some(id) = self.book.look(key, most, |other| *other == rest) {
            return Sorted::Covered(id);
        }
        match self.publish_swap(&rest, key, most) {
            Some(id) => Sorted::Covered(id),
            None => Sorted::Open(rest),
        }
    }

    fn publish_swap(&mut self, rest: &Set<W>, key: u64, most: u32) -> Option<u32> {
        let (line, mut looks) = (self.line, 32);
        for i in members(&meet(rest, &line.has_partners)) {
            for &j in line.partners.row(i) {
                if has(rest, j) {
                    continue;
                }
                if looks == 0 {
                    return None;
                }
                looks -= 1;
                let swapped = key ^ line.tasks[i as usize].key ^ line.tasks[j as usize].key;
                let is_it = |other: &Set<W>| {
                    let mut set = *rest;
                    remove(&mut set, i);
                    insert(&mut set, j);
                    set == *other
                };
                if let Some(cite) = self.book.look(swapped, most, is_it) {
                    let why = Why::Swap {
                        cite,
                        out_task: i,
                        in_task: j,
                    };
                    let entry = Entry {
                        most,
                        cycle: line.cycle,
                        why,
                    };
                    return Some(self.book.publish(rest, key, entry));
                }
            }
        }
        None
    }

    // Adds the times of the tasks that the load in hand has to the chains of the tasks that wait for them, or takes
    // them off.
    fn change_chains(&mut self, rest: &Set<W>, back: bool) {
        let line = self.line;
        if U {
            return;
        }
        for at in self.frame().root + 1..=self.top {
            let (task, side) = (self.nodes[at].task, self.nodes[at].side);
            let time = if back {
                line.time(task)
            } else {
                line.time(task).wrapping_neg()
            };
            for j in members(&meet(line.waiting(side, task), rest)) {
                let sum = &mut self.chain_times[side][j as usize];
                *sum = sum.wrapping_add(time);
            }
        }
    }

    // Opens a frame for what the load in hand leaves.
    fn open(&mut self, rest: Set<W>) {
        let frame = self.frame();
        let (sides, root) = (frame.sides, frame.root);
        if !self.nodes[self.top].unlocked {
            self.unlock();
        }
        self.change_chains(&rest, false);
        let (frame, node) = (self.frame(), &self.nodes[self.top]);
        let ends = [FRONT, BACK].map(|side| match sides[side] {
            true => node.free[side],
            false => meet(&self.nodes[root].free[side], &rest),
        });
        let below = Frame {
            set: rest,
            most: frame.most - 1,
            sides,
            root: self.top + 1,
            cites: self.cites.len(),
            chains: self.chains.len(),
            chained: false,
            total: frame.total + node.room - self.line.cycle,
            slack: 0,
            sizes: frame.sizes - node.sizes,
            key: frame.key ^ node.key,
            shortest: frame.shortest,
        };
        self.begin(below, ends);
    }

    // Puts a frame on the stack, whose sources and sinks are known, before its first load.
    fn begin(&mut self, mut frame: Frame<W>, ends: [Set<W>; 2]) {
        let line = self.line;
        let fore = count(&ends[FRONT]) <= count(&ends[BACK]);
        frame.sides = if U { [true, true] } else { [fore, !fore] };
        frame.slack = u64::from(frame.most) * line.cycle - frame.total;
        while !has(&frame.set, line.fits.order[frame.shortest]) {
            frame.shortest += 1;
        }
        let root = &mut self.nodes[frame.root];
        (root.free, root.room, root.sizes, root.key) = (ends, line.cycle, 0, 0);
        root.left = ends;
        self.top = frame.root;
        self.frames.push(frame);
    }

    // Publishes that the frame in hand is refuted, and goes back to the one above it. Whether there is one.
    fn close(&mut self) -> bool {
        let frame = self.frames.pop().expect("a frame");
        let from = self.book.cited.len() as u32;
        self.book.cited.extend(self.cites.drain(frame.cites..));
        let cites = (from, self.book.cited.len() as u32);
        let why = Why::Branch {
            sides: frame.sides,
            cites,
        };
        let entry = Entry {
            most: frame.most,
            cycle: self.line.cycle,
            why,
        };
        let id = self.book.publish(&frame.set, frame.key, entry);
        self.chains.truncate(frame.chains);
        if self.frames.is_empty() {
            return false;
        }
        self.top = frame.root - 1;
        self.change_chains(&frame.set, true);
        self.cites.push(id);
        true
    }

    // Whether the bound refutes that all tasks have a balance in `most` stations.
    fn exceeds(&self, most: u64) -> bool {
        let (line, cycle) = (self.line, self.line.cycle);
        let chained = |i: usize| {
            let needed = |side: usize| self.chain_times[side][i].div_ceil(cycle);
            !U && needed(FRONT) + needed(BACK) - 1 > most
        };
        most == 0
            || line.time_of(&line.all()).div_ceil(cycle) > most
            || line.tasks.iter().any(|task| task.time > cycle)
            || stations_of(line.tasks.iter().map(|task| task.sizes).sum()) > most
            || (0..line.tasks.len()).any(chained)
    }

    // The frame of all tasks.
    fn begin_all(&mut self, most: u32) {
        let line = self.line;
        let n = line.tasks.len() as u32;
        let end = |side: usize| {
            let mut set = [0; W];
            (0..n)
                .filter(|&i| self.counters[side][i as usize] == 0)
                .for_each(|i| insert(&mut set, i));
            set
        };
        let ends = [end(FRONT), end(BACK)];
        let frame = Frame {
            set: line.all(),
            most,
            sides: [false; 2],
            root: 0,
            cites: 0,
            chains: 0,
            chained: false,
            total: line.time_of(&line.all()),
            slack: 0,
            sizes: line.tasks.iter().map(|task| task.sizes).sum(),
            key: line.tasks.iter().fold(0, |all, task| all ^ task.key),
            shortest: 0,
        };
        self.begin(frame, ends);
    }

    fn decide(&mut self, most: u32) -> &'static str {
        if self.exceeds(u64::from(most)) {
            return "bound";
        }
        self.book.looks += 1;
        self.begin_all(most);
        loop {
            match self.next_load() {
                None if !self.close() => return "entry",
                None => {}
                Some(false) => return "spent",
                Some(true) => match self.sort_load() {
                    Sorted::Closed => {}
                    Sorted::Covered(id) => self.cites.push(id),
                    Sorted::Empty => return "found",
                    Sorted::Open(rest) => self.open(rest),
                },
            }
        }
    }
}

// The stations of the ranked balance.
fn ranked_stations<const W: usize>(line: &Line<W>) -> u32 {
    let n = line.tasks.len() as u32;
    let sides = if line.u {
        vec![FRONT, BACK]
    } else {
        vec![FRONT]
    };
    let weigh =
        |side: usize| (0..n).map(move |i| line.time(i) + line.time_of(line.waiting(side, i)));
    let weights: Vec<Vec<u64>> = sides.iter().map(|&side| weigh(side).collect()).collect();
    let mut placed = [[0; W]; 2];
    let (mut stations, mut room) = (1, line.cycle);
    for _ in 0..n {
        loop {
            let mut best: Option<(u64, u32, usize)> = None;
            for i in (0..n).filter(|&i| line.time(i) <= room) {
                if has(&placed[FRONT], i) || has(&placed[BACK], i) {
                    continue;
                }
                for &side in &sides {
                    let weight = weights[side][i as usize];
                    let ready = is_within(&line.ahead[side][i as usize], &placed[side]);
                    if ready && best.is_none_or(|it| it.0 < weight) {
                        best = Some((weight, i, side));
                    }
                }
            }
            if let Some((_, i, side)) = best {
                insert(&mut placed[side], i);
                room -= line.time(i);
                break;
            }
            (stations, room) = (stations + 1, line.cycle);
        }
    }
    stations
}

fn run<const W: usize, const U: bool>(shape: &str, kind: &str, n: u32, cycle: u64, units: u64) {
    let line = Line::<W>::of(n, shape, U, cycle);
    let most = ranked_stations(&line) - 1;
    let start = Instant::now();
    let mut search = Search::<W, U>::new(&line, units);
    let answer = search.decide(most);
    let spent = start.elapsed().as_nanos();
    let (used, book) = (units - search.units, &search.book);
    let (entries, cites, looks) = (book.entries.len(), book.cites(), book.looks);
    println!("{shape} {kind} {n} {cycle} {most} {answer} {used} {entries} {cites} {spent} {looks}");
}

// The arguments: the shape, the kind of line, the tasks, the cycle and the units.
fn main() {
    let words: Vec<String> = std::env::args().collect();
    let number = |k: usize| words[k].parse::<u64>().expect("a number");
    let (shape, kind) = (words[1].as_str(), words[2].as_str());
    let (n, cycle, units) = (number(3) as u32, number(4), number(5));
    let run_as = match (kind, n) {
        ("u", 0..=64) => run::<1, true>,
        ("u", 65..=128) => run::<2, true>,
        ("u", 129..=320) => run::<5, true>,
        ("u", _) => run::<16, true>,
        (_, 0..=64) => run::<1, false>,
        (_, 65..=128) => run::<2, false>,
        (_, 129..=320) => run::<5, false>,
        _ => run::<16, false>,
    };
    run_as(shape, kind, n, cycle, units);
}
