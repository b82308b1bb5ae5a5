// The drift of crate threshold_search in plain Rust: the same draws and steps, with vectors and indices. Its line is that
// of bench.rattle. It has no tasks that are apart.
use std::time::Instant;

fn next(state: u64) -> u64 {
    state.wrapping_mul(6_364_136_223_846_793_005).wrapping_add(1_442_695_040_888_963_407)
}

// Lcg64Xsh32 of rand_pcg, made by seed_from_u64.
struct Pcg {
    state: u64,
    increment: u64,
}

impl Pcg {
    fn seeded(mut seed: u64) -> Pcg {
        let mut words = [0u32; 4];
        for word in &mut words {
            seed = seed.wrapping_mul(6_364_136_223_846_793_005).wrapping_add(11_634_580_027_462_260_723);
            *word = ((((seed >> 18) ^ seed) >> 27) as u32).rotate_right((seed >> 59) as u32);
        }
        let increment = (u64::from(words[2]) | u64::from(words[3]) << 32) | 1;
        let mut made = Pcg { state: u64::from(words[0]) | u64::from(words[1]) << 32, increment };
        made.state = made.state.wrapping_add(increment);
        made.turn();
        made
    }

    fn turn(&mut self) {
        self.state = self.state.wrapping_mul(6_364_136_223_846_793_005).wrapping_add(self.increment);
    }

    fn word(&mut self) -> u32 {
        let state = self.state;
        self.turn();
        ((((state >> 18) ^ state) >> 27) as u32).rotate_right((state >> 59) as u32)
    }

    fn draw(&mut self, k: u32) -> u32 {
        (u64::from(self.word()) * u64::from(k) >> 32) as u32
    }
}

struct Drift {
    u: bool,
    cycle: u64,
    most: u32,
    last: u32,
    times: Vec<u64>,
    before: Vec<Vec<bool>>,
    ahead: Vec<Vec<u32>>,
    behind: Vec<Vec<u32>>,
    rows: Vec<Vec<u32>>,
    slots: Vec<u32>,
    places: Vec<u32>,
    sums: Vec<u64>,
    long: Vec<u32>,
    // The place of a station in the list of long ones, from 1.
    listed: Vec<u32>,
}

impl Drift {
    fn station(&self, slot: u32) -> usize {
        (if slot < self.most { slot } else { self.last - slot }) as usize
    }

    fn mend(&mut self, station: usize) {
        let (is_long, place) = (self.sums[station] > self.cycle, self.listed[station]);
        if is_long && place == 0 {
            self.long.push(station as u32);
            self.listed[station] = self.long.len() as u32;
        } else if !is_long && place > 0 {
            self.long.swap_remove(place as usize - 1);
            if let Some(&moved) = self.long.get(place as usize - 1) {
                self.listed[moved as usize] = place;
            }
            self.listed[station] = 0;
        }
    }

    fn enter(&mut self, task: u32, slot: u32) {
        self.places[task as usize] = self.rows[slot as usize].len() as u32;
        self.slots[task as usize] = slot;
        self.rows[slot as usize].push(task);
    }

    fn leave(&mut self, task: u32) {
        let (slot, place) = (self.slots[task as usize] as usize, self.places[task as usize] as usize);
        self.rows[slot].swap_remove(place);
        if let Some(&moved) = self.rows[slot].get(place) {
            self.places[moved as usize] = place as u32;
        }
    }

    fn low(&self, task: u32) -> u32 {
        self.ahead[task as usize].iter().map(|&it| self.slots[it as usize]).max().unwrap_or(0)
    }

    fn high(&self, task: u32) -> u32 {
        self.behind[task as usize].iter().map(|&it| self.slots[it as usize]).min().unwrap_or(self.last)
    }

    // The sums after a change, where it bears.
    fn changed(&self, x: usize, y: usize, gone: u64, come: u64, threshold: u64) -> Option<(u64, u64)> {
        let (old_x, old_y) = (self.sums[x], self.sums[y]);
        let (new_x, new_y) = (old_x - gone + come, old_y - come + gone);
        let over = |time: u64| time.saturating_sub(self.cycle);
        (over(new_x) + over(new_y) <= over(old_x) + over(old_y) + threshold).then_some((new_x, new_y))
    }

    fn set(&mut self, x: usize, y: usize, sums: (u64, u64)) {
        self.sums[x] = sums.0;
        self.sums[y] = sums.1;
        self.mend(x);
        self.mend(y);
    }

    fn step(&mut self, random: &mut Pcg, threshold: u64) {
        if random.draw(8) == 0 {
            let slot = random.draw(self.last);
            self.exchange(slot, threshold);
        } else {
            self.shift(random, threshold);
        }
    }

    fn exchange(&mut self, slot: u32, threshold: u64) {
        let next = slot + 1;
        let leads = |task: &u32| self.ahead[*task as usize].iter().any(|&it| self.slots[it as usize] == slot);
        if self.rows[next as usize].iter().any(leads) {
            return;
        }
        let (x, y) = (self.station(slot), self.station(next));
        if x != y {
            let time = |slot: u32| self.rows[slot as usize].iter().map(|&it| self.times[it as usize]).sum();
            let Some(sums) = self.changed(x, y, time(slot), time(next), threshold) else { return };
            self.set(x, y, sums);
        }
        self.rows.swap(slot as usize, next as usize);
        for here in [slot, next] {
            for at in 0..self.rows[here as usize].len() {
                let task = self.rows[here as usize][at];
                self.slots[task as usize] = here;
            }
        }
    }

    fn draw_task(&self, random: &mut Pcg) -> u32 {
        if self.long.is_empty() || random.draw(2) != 0 {
            return random.draw(self.times.len() as u32);
        }
        let front = self.long[random.draw(self.long.len() as u32) as usize];
        let ahead = self.rows[front as usize].len() as u32;
        let back = (self.last - front) as usize;
        let behind = if self.u { self.rows[back].len() as u32 } else { 0 };
        let place = random.draw(ahead + behind);
        if place < ahead { self.rows[front as usize][place as usize] } else { self.rows[back][(place - ahead) as usize] }
    }

    fn shift(&mut self, random: &mut Pcg, threshold: u64) {
        let task = self.draw_task(random);
        let (from, low, high) = (self.slots[task as usize], self.low(task), self.high(task));
        let to = low + random.draw(high - low + 1);
        if to == from {
            return;
        }
        let place = random.draw(self.rows[to as usize].len() as u32 + 1) as usize;
        let other = self.rows[to as usize].get(place).copied();
        let (x, y) = (self.station(from), self.station(to));
        let come = other.map_or(0, |it| self.times[it as usize]);
        let mut sums = None;
        if x != y {
            sums = self.changed(x, y, self.times[task as usize], come, threshold);
            if sums.is_none() {
                return;
            }
        }
        if let Some(other) = other {
            let (a, b) = (task as usize, other as usize);
            if self.before[a][b] || self.before[b][a] || self.low(other) > from || from > self.high(other) {
                return;
            }
        }
        if let Some(sums) = sums {
            self.set(x, y, sums);
        }
        self.leave(task);
        self.enter(task, to);
        if let Some(other) = other {
            self.leave(other);
            self.enter(other, from);
        }
    }
}

fn main() {
    let words: Vec<String> = std::env::args().collect();
    let number = |k: usize| words[k].parse::<u64>().expect("a number");
    let (tree, u) = (words[1] == "tree", words[2] == "u");
    let (n, cycle, units) = (number(3) as usize, number(4), number(5));
    let mut state = 7;
    let times: Vec<u64> = (0..n)
        .map(|_| {
            state = next(state);
            1 + (state >> 33) % 1000
        })
        .collect();
    let mut before = vec![vec![false; n]; n];
    state = 1;
    let (mut ahead, mut behind) = (vec![Vec::new(); n], vec![Vec::new(); n]);
    for i in 1..n {
        state = next(state);
        let first = i - 1 - ((state >> 33) % (if tree { 1024 } else { 40 }).min(i as u64)) as usize;
        for k in 0..n {
            before[k][i] = before[k][first] || k == first;
        }
        ahead[i].push(first as u32);
        behind[first].push(i as u32);
    }
    let most = (times.iter().sum::<u64>().div_ceil(cycle) - 1).min(1024) as u32;
    let mut random = Pcg::seeded(0);
    let start = Instant::now();
    let last = if u { 2 * most - 1 } else { most - 1 };
    let mut drift = Drift {
        u,
        cycle,
        most,
        last,
        times,
        before,
        ahead,
        behind,
        rows: vec![Vec::new(); last as usize + 1],
        slots: vec![0; n],
        places: vec![0; n],
        sums: vec![0; most as usize],
        long: Vec::new(),
        listed: vec![0; most as usize],
    };
    for task in 0..n {
        let slot = (task * most as usize / n) as u32;
        drift.enter(task as u32, slot);
        drift.sums[slot as usize] += drift.times[task];
    }
    for station in 0..most as usize {
        drift.mend(station);
    }
    let total = units * n.div_ceil(8) as u64;
    for k in 0..total {
        if drift.long.is_empty() {
            break;
        }
        let left = 64 - 64 * k / total;
        let threshold = (u128::from(cycle) * u128::from(left * left * left) >> 22) as u64;
        drift.step(&mut random, threshold);
    }
    let spent = start.elapsed().as_nanos();
    let (shape, line) = (&words[1], &words[2]);
    println!("{shape} {line} {n} {cycle} {most} {units} {} {spent}", random.word());
}
