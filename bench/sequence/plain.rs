//! The same seek in plain Rust, made to be fast: it finds the same sequence and tells the same lemmas as the proved
//! one, to the number, and shares nothing with it but the problem.
//!
//! A row is any list of models. Each unit of it pays a charge for its model beside 1000 times its utility work, so that
//! rows with too much of one model don't come cheap. A table has nodes, each with its starts. A pass tells for each node
//! what so many units cost at least from there: one minimum over the models for each number of units. Then the charges
//! move by how often the cheapest row has each model, and the table gets the starts that this row lacked. Once in a
//! round a walk goes from the first unit to the last with the best few states of each, and takes the sequence that it
//! finds. The lemmas are those values of one pass that the value of all units rests on, and after a walk that lost no
//! state also the states that it cites.
//!
//! A pass costs one sum and one minimum for each node, model and number of units. A step of a walk costs some passes
//! over the stations, and one hash of what is left for each candidate that isn't dropped.
//!
//! Reads problems from its input: models, stations, interval, length and the units of the seek; the demands; and for
//! each model its work at the stations. Prints for each the units used, the lemmas told, the least total found and the
//! seconds; with `--list` before that also the sequence, the charges and the lemmas as a certificate has them.

use std::cmp::Reverse;
use std::collections::{BTreeMap, BTreeSet, HashMap};
use std::io::Read;
use std::ops::ControlFlow::{self, Break, Continue};
use std::time::Instant;

/// One unit of utility work, in the terms of charges.
const SCALE: u64 = 1000;
const MAX_CHARGE: i128 = 100_000_000_000_000;
const MAX_WORK: u64 = 10_000_000_000;
/// A pass has at most so many values.
const MAX_VALUES: usize = 2_000_000;
const MAX_LIST_UNITS: usize = 999_999;
const FIRST_ROUND: u64 = 1000;
const NONE: u32 = u32::MAX;

/// What is demanded, and what its units take at the stations.
struct Mix {
    models: usize,
    stations: usize,
    interval: u64,
    length: u64,
    demands: Vec<u64>,
    /// The work at the stations, model by model.
    work: Vec<u64>,
}

impl Mix {
    fn units(&self) -> usize {
        self.demands.iter().sum::<u64>() as usize
    }

    fn work(&self, model: usize) -> &[u64] {
        &self.work[model * self.stations..][..self.stations]
    }

    // The utility work of a unit from these starts; those that it leads to go into `to`.
    fn step(&self, starts: &[u64], model: usize, to: &mut [u64]) -> u64 {
        let mut cost = 0;
        for ((to, start), work) in to.iter_mut().zip(starts).zip(self.work(model)) {
            let reach = start + work;
            cost += reach.saturating_sub(self.length);
            *to = reach.min(self.length).saturating_sub(self.interval);
        }
        cost
    }

    // The work that so many units of each model are at the stations.
    fn ahead(&self, counts: &[u64]) -> Vec<u64> {
        let mut ahead = vec![0; self.stations];
        for (model, count) in counts.iter().enumerate() {
            for (sum, work) in ahead.iter_mut().zip(self.work(model)) {
                *sum += count * work;
            }
        }
        ahead
    }

    // What the work ahead without a unit of the model can't keep within the stations, with so many units left.
    fn bound(&self, starts: &[u64], ahead: &[u64], model: usize, left: usize) -> u64 {
        if left == 0 {
            return 0;
        }
        let time = self.length + (left as u64 - 1) * self.interval;
        let rest = ahead.iter().zip(self.work(model)).map(|(all, work)| all - work);
        starts.iter().zip(rest).map(|(start, rest)| (start + rest).saturating_sub(time)).sum()
    }

    fn model_order(&self) -> Vec<u32> {
        let run = |(model, &demand): (usize, &u64)| std::iter::repeat_n(model as u32, demand as usize);
        self.demands.iter().enumerate().flat_map(run).collect()
    }

    fn total(&self, sequence: &[u32]) -> u64 {
        let (mut starts, mut next) = (vec![0; self.stations], vec![0; self.stations]);
        let mut total = 0;
        for &model in sequence {
            total += self.step(&starts, model as usize, &mut next);
            std::mem::swap(&mut starts, &mut next);
        }
        total
    }
}

/// What so many units of each model pay.
fn paid(counts: &[u64], charges: &[u64]) -> u64 {
    counts.iter().zip(charges).map(|(count, charge)| count * charge).sum()
}

fn are_no_later(a: &[u64], b: &[u64]) -> bool {
    a.iter().zip(b).all(|(a, b)| a <= b)
}

/// Nodes with their starts, the first of which are all 0. The next node of a node and a model has starts no later than
/// those that the model's unit leads to.
struct Table<'a> {
    mix: &'a Mix,
    room: usize,
    starts: Vec<u64>,
    /// The utility work of each model's unit, node by node.
    costs: Vec<u64>,
    next: Vec<u32>,
    /// The node that stood in the place of this one before it came.
    like: Vec<u32>,
    known: HashMap<Box<[u64]>, u32>,
}

impl<'a> Table<'a> {
    fn of(mix: &'a Mix) -> Table<'a> {
        let mut table = Table {
            mix,
            room: MAX_VALUES / (mix.units() + 1),
            starts: Vec::new(),
            costs: Vec::new(),
            next: Vec::new(),
            like: Vec::new(),
            known: HashMap::new(),
        };
        table.add(&vec![0; mix.stations], NONE);
        table.next.resize(mix.models, 0);
        table
    }

    fn nodes(&self) -> usize {
        self.like.len()
    }

    fn starts(&self, node: u32) -> &[u64] {
        &self.starts[node as usize * self.mix.stations..][..self.mix.stations]
    }

    // A node with these starts, still without its next ones.
    fn add(&mut self, starts: &[u64], like: u32) -> u32 {
        let (mix, node) = (self.mix, self.nodes() as u32);
        let mut to = vec![0; mix.stations];
        self.costs.extend((0..mix.models).map(|model| mix.step(starts, model, &mut to)));
        self.starts.extend_from_slice(starts);
        self.like.push(like);
        self.known.insert(starts.into(), node);
        node
    }

    // Leads a step to the node of exactly its starts, where there is one or room for one.
    fn open(&mut self, node: u32, model: u32, to: &mut [u64]) {
        self.mix.step(self.starts(node), model as usize, to);
        let models = self.mix.models;
        let place = node as usize * models + model as usize;
        if let Some(&known) = self.known.get(&*to) {
            self.next[place] = known;
        } else if self.nodes() < self.room {
            let like = self.next[place];
            self.next[place] = self.add(to, like);
            self.next.extend_from_within(like as usize * models..(like as usize + 1) * models);
        }
    }
}

/// What a pass over a table tells, with the charges and the next nodes that it took.
#[derive(Clone, Default)]
struct Told {
    models: usize,
    nodes: usize,
    charges: Vec<u64>,
    /// What a unit of each model costs with its charge, node by node.
    costs: Vec<u64>,
    next: Vec<u32>,
    /// What so many units cost at least from each node: those of no unit for all nodes, then those of one, and so on.
    values: Vec<u64>,
}

impl Told {
    fn pass(&mut self, table: &Table, charges: &[u64]) {
        (self.models, self.nodes) = (table.mix.models, table.nodes());
        self.charges.clear();
        self.charges.extend_from_slice(charges);
        self.next.clone_from(&table.next);
        self.costs.clear();
        for costs in table.costs.chunks_exact(self.models) {
            let charged = costs.iter().zip(charges).map(|(cost, charge)| SCALE * cost + charge);
            self.costs.extend(charged);
        }
        let units = table.mix.units();
        self.values.resize((units + 1) * self.nodes, 0);
        self.values[..self.nodes].fill(0);
        for left in 1..=units {
            let (told, rest) = self.values.split_at_mut(left * self.nodes);
            let before = &told[(left - 1) * self.nodes..];
            one_more(self.models, &self.costs, &self.next, before, &mut rest[..self.nodes]);
        }
    }

    fn value(&self, left: usize, node: u32) -> u64 {
        self.values[left * self.nodes + node as usize]
    }

    fn steps(&self, node: u32) -> impl Iterator<Item = (u64, u32)> + '_ {
        let steps = node as usize * self.models..(node as usize + 1) * self.models;
        self.costs[steps.clone()].iter().copied().zip(self.next[steps].iter().copied())
    }

    fn next(&self, node: u32, model: usize) -> u32 {
        self.next[node as usize * self.models + model]
    }

    // What the mix's units cost at least, without their charges.
    fn worth(&self, mix: &Mix) -> i64 {
        self.value(mix.units(), 0) as i64 - paid(&mix.demands, &self.charges) as i64
    }

    // The nodes and models of a row that costs as little as the pass tells.
    fn cheapest_row(&self, units: usize) -> Vec<(u32, u32)> {
        let mut node = 0;
        let mut row = Vec::with_capacity(units);
        for left in (1..=units).rev() {
            let least = self.value(left, node);
            let is_least = |&(cost, next): &(u64, u32)| cost + self.value(left - 1, next) == least;
            let model = self.steps(node).position(|step| is_least(&step)).expect("a model gives the least");
            row.push((node, model as u32));
            node = self.next(node, model);
        }
        row
    }
}

// The values of one unit more.
fn one_more(models: usize, costs: &[u64], next: &[u32], before: &[u64], values: &mut [u64]) {
    let steps = costs.chunks_exact(models).zip(next.chunks_exact(models));
    for (value, (costs, next)) in values.iter_mut().zip(steps) {
        let steps = costs.iter().zip(next).map(|(cost, &next)| cost + before[next as usize]);
        *value = steps.min().unwrap_or(0);
    }
}

/// A state of a walk beside its starts and what is left.
#[derive(Clone, Copy)]
struct State {
    /// The rank of what is left, among all that can be left.
    rank: u128,
    /// The charges of what is left.
    due: u64,
    cost: u64,
    /// At least so much the whole costs by the bound and the table.
    told: u64,
    node: u32,
    /// The state of the layer before, and the model that led from it.
    from: u32,
    model: u32,
}

/// States after equally many units, with an index by what is left.
#[derive(Default)]
struct Layer {
    states: Vec<State>,
    left: Vec<u64>,
    starts: Vec<u64>,
    last: HashMap<u128, u32>,
    /// The state before with the same units left.
    earlier: Vec<u32>,
}

impl Layer {
    fn left(&self, state: usize, mix: &Mix) -> &[u64] {
        &self.left[state * mix.models..][..mix.models]
    }

    fn starts(&self, state: usize, mix: &Mix) -> &[u64] {
        &self.starts[state * mix.stations..][..mix.stations]
    }

    fn push(&mut self, state: State, left: &[u64], starts: &[u64]) {
        self.states.push(state);
        self.left.extend_from_slice(left);
        self.starts.extend_from_slice(starts);
    }

    // Adds a state to the index as well.
    fn keep(&mut self, state: State, left: &[u64], starts: &[u64]) {
        let place = self.states.len() as u32;
        self.earlier.push(self.last.insert(state.rank, place).unwrap_or(NONE));
        self.push(state, left, starts);
    }

    // The states that stand for one with these starts, the last one first.
    fn standing<'a>(&'a self, mix: &'a Mix, of: &'a State, starts: &'a [u64]) -> impl Iterator<Item = u32> + 'a {
        let last = self.last.get(&of.rank).copied();
        let earlier = move |&place: &u32| Some(self.earlier[place as usize]).filter(|&place| place != NONE);
        std::iter::successors(last, earlier).filter(move |&place| {
            let place = place as usize;
            self.states[place].cost <= of.cost && are_no_later(self.starts(place, mix), starts)
        })
    }
}

/// Walks with what a pass tells.
struct Walker<'a> {
    mix: &'a Mix,
    told: &'a Told,
    /// What a unit of each model counts in a rank.
    places: Vec<u128>,
}

/// The layers of a walk, up to one that is empty or has nothing left.
struct Walk {
    layers: Vec<Layer>,
    whole: bool,
}

impl<'a> Walker<'a> {
    fn of(mix: &'a Mix, told: &'a Told) -> Walker<'a> {
        let mut place = 1;
        let mut places = Vec::with_capacity(mix.models);
        for &demand in &mix.demands {
            places.push(place);
            place *= demand as u128 + 1;
        }
        Walker { mix, told, places }
    }

    fn root(&self) -> Layer {
        let demands = &self.mix.demands;
        let rank = demands.iter().zip(&self.places).map(|(&demand, place)| demand as u128 * place).sum();
        let due = paid(demands, &self.told.charges);
        let root = State { rank, due, cost: 0, told: 0, node: 0, from: NONE, model: NONE };
        let mut layer = Layer::default();
        layer.keep(root, demands, &vec![0; self.mix.stations]);
        layer
    }

    // A walk with so many states in each layer; None where the units run out.
    fn walk(&self, width: usize, total: u64, units: &mut u64) -> Option<Walk> {
        let mut walk = Walk { layers: vec![self.root()], whole: true };
        for left in (0..self.mix.units()).rev() {
            let candidates = self.candidates(walk.layers.last()?, left, total, units)?;
            let (next, whole) = self.choose(&candidates, width);
            let ends = next.states.is_empty();
            walk.layers.push(next);
            walk.whole &= whole;
            if ends {
                break;
            }
        }
        Some(walk)
    }

    // The states after a layer's, as they come, that may cost less than the total; None where the units run out.
    fn candidates(&self, layer: &Layer, left: usize, total: u64, units: &mut u64) -> Option<Layer> {
        let mix = self.mix;
        let mut found = Layer::default();
        let mut starts = vec![0; mix.stations];
        for place in 0..layer.states.len() {
            let mut rest = layer.left(place, mix).to_vec();
            let ahead = mix.ahead(&rest);
            for model in 0..mix.models {
                if rest[model] == 0 {
                    continue;
                }
                *units = units.checked_sub(1)?;
                let next = self.next(layer, place, model, &mut starts);
                let told = self.told.value(left, next.node).saturating_sub(next.due).div_ceil(SCALE);
                let told = next.cost + told.max(mix.bound(&starts, &ahead, model, left));
                if told < total {
                    rest[model] -= 1;
                    found.push(State { told, ..next }, &rest, &starts);
                    rest[model] += 1;
                }
            }
        }
        Some(found)
    }

    // The state after a unit of a model; its starts go into `starts`.
    fn next(&self, layer: &Layer, place: usize, model: usize, starts: &mut [u64]) -> State {
        let state = &layer.states[place];
        State {
            rank: state.rank - self.places[model],
            due: state.due - self.told.charges[model],
            cost: state.cost + self.mix.step(layer.starts(place, self.mix), model, starts),
            told: 0,
            node: self.told.next(state.node, model),
            from: place as u32,
            model: model as u32,
        }
    }

    // The first that stay: those that are told the least, of these the dearest, for which no other stands. And whether
    // these are all that would have stayed.
    fn choose(&self, candidates: &Layer, width: usize) -> (Layer, bool) {
        let mut order: Vec<u32> = (0..candidates.states.len() as u32).collect();
        order.sort_unstable_by_key(|&place| {
            let state = &candidates.states[place as usize];
            (state.told, Reverse(state.cost), place)
        });
        let mut layer = Layer::default();
        for place in order {
            let state = candidates.states[place as usize];
            let starts = candidates.starts(place as usize, self.mix);
            if layer.standing(self.mix, &state, starts).next().is_some() {
                continue;
            }
            if layer.states.len() == width {
                return (layer, false);
            }
            layer.keep(state, candidates.left(place as usize, self.mix), starts);
        }
        (layer, true)
    }
}

impl Walk {
    // The sequence to the first state that has nothing left, and its total.
    fn sequence(&self, units: usize) -> Option<(Vec<u32>, u64)> {
        let total = self.layers.get(units)?.states.first()?.cost;
        let mut place = 0;
        let mut sequence = Vec::with_capacity(units);
        for layer in self.layers[1..].iter().rev() {
            let state = &layer.states[place as usize];
            sequence.push(state.model);
            place = state.from;
        }
        sequence.reverse();
        Some((sequence, total))
    }
}

enum End {
    /// The last pass tells as much as the sequence costs.
    Closed,
    /// A walk lost no state.
    Walked(Vec<Layer>),
    /// The units ran out.
    Spent,
    /// The sequence costs nothing, or a work is too long to seek.
    Free,
}

/// A seek with its best sequence so far and the total of that.
struct Seek<'a> {
    mix: &'a Mix,
    table: Table<'a>,
    /// The units that are left.
    units: u64,
    sequence: Vec<u32>,
    total: u64,
    charges: Vec<u64>,
    /// The last pass, and the one before the last walk.
    told: Told,
    walked: Told,
}

impl<'a> Seek<'a> {
    fn of(mix: &'a Mix, limit: u64) -> Seek<'a> {
        let table = Table::of(mix);
        let greatest = table.costs.iter().max().copied().unwrap_or(0);
        let charge = |cost: &u64| (SCALE * (greatest - cost)).min(MAX_CHARGE as u64);
        let sequence = mix.model_order();
        Seek {
            mix,
            units: limit,
            total: mix.total(&sequence),
            sequence,
            charges: table.costs.iter().map(charge).collect(),
            table,
            told: Told::default(),
            walked: Told::default(),
        }
    }

    fn run(&mut self) -> End {
        if self.total == 0 || self.mix.work.iter().any(|&work| work > MAX_WORK) {
            return End::Free;
        }
        let mut size = FIRST_ROUND;
        loop {
            if let Break(end) = self.round(size) {
                return end;
            }
            size *= 2;
        }
    }

    // Passes of so many units together, with a walk after the first one.
    fn round(&mut self, size: u64) -> ControlFlow<End> {
        let width = size as usize / (self.mix.units() * self.mix.models);
        let (mut rest, mut width) = (size, Some(width.max(1)));
        let (mut greatest, mut best) = (i64::MIN, Vec::new());
        while width.is_some() || rest >= self.table.nodes() as u64 {
            let nodes = self.table.nodes() as u64;
            if self.units < nodes {
                return Break(End::Spent);
            }
            self.units -= nodes;
            rest = rest.saturating_sub(nodes);
            self.told.pass(&self.table, &self.charges);
            let layers = width.take().map_or(Continue(None), |width| self.walk(width))?;
            let worth = self.told.worth(self.mix);
            if worth > (SCALE * (self.total - 1)) as i64 {
                return Break(End::Closed);
            }
            if let Some(layers) = layers {
                return Break(End::Walked(layers));
            }
            if worth > greatest {
                (greatest, best) = (worth, self.charges.clone());
            }
            self.advance(worth);
        }
        self.charges = best;
        Continue(())
    }

    // A walk with the last pass. Tells its layers where none of them lost a state.
    fn walk(&mut self, width: usize) -> ControlFlow<End, Option<Vec<Layer>>> {
        self.walked = self.told.clone();
        let walker = Walker::of(self.mix, &self.told);
        let Some(walk) = walker.walk(width, self.total, &mut self.units) else {
            return Break(End::Spent);
        };
        if let Some((sequence, total)) = walk.sequence(self.mix.units()) {
            (self.sequence, self.total) = (sequence, total);
        }
        if self.total == 0 {
            return Break(End::Free);
        }
        Continue(walk.whole.then_some(walk.layers))
    }

    // Opens the steps of the cheapest row, and moves each charge by how much of its model the row has above the demand.
    fn advance(&mut self, worth: i64) {
        let mut above: Vec<i128> = self.mix.demands.iter().map(|&demand| -(demand as i128)).collect();
        let mut to = vec![0; self.mix.stations];
        for (node, model) in self.told.cheapest_row(self.mix.units()) {
            above[model as usize] += 1;
            self.table.open(node, model, &mut to);
        }
        let squares: i128 = above.iter().map(|above| above * above).sum();
        if squares == 0 {
            return;
        }
        let gap = SCALE as i128 * self.total as i128 - worth as i128;
        let move_one = |(&charge, above): (&u64, &i128)| charge as i128 + gap * above / (2 * squares);
        let moved: Vec<i128> = self.charges.iter().zip(&above).map(move_one).collect();
        let least = moved.iter().min().copied().unwrap_or(0);
        self.charges = moved.iter().map(|charge| (charge - least).min(MAX_CHARGE) as u64).collect();
    }
}

/// A lemma among those with equally many units left: that of a node, or that of a state of the walk.
#[derive(Clone, Copy, PartialEq, Eq, Hash)]
enum Name {
    Charge(u32),
    Branch(u32),
}

/// A lemma of so many units left. It cites lemmas with one unit fewer.
struct Lemma {
    left: usize,
    name: Name,
    least: u64,
    cites: Vec<Name>,
}

/// The lemmas that a seek tells, from all units left down to one.
struct List<'a> {
    seek: &'a Seek<'a>,
    walker: Walker<'a>,
    layers: &'a [Layer],
    /// The bases that are asked of nodes, by the units left.
    asked: Vec<BTreeMap<u32, u64>>,
    /// The states that are cited, by the units left.
    cited: Vec<BTreeSet<u32>>,
    lemmas: Vec<Lemma>,
}

impl<'a> List<'a> {
    fn of(seek: &'a Seek<'a>, end: &'a End) -> List<'a> {
        let units = seek.mix.units();
        let told = if matches!(end, End::Spent) { &seek.walked } else { &seek.told };
        let mut list = List {
            seek,
            walker: Walker::of(seek.mix, told),
            layers: &[],
            asked: vec![BTreeMap::new(); units + 1],
            cited: vec![BTreeSet::new(); units + 1],
            lemmas: Vec::new(),
        };
        match end {
            End::Free => return list,
            End::Walked(layers) => {
                list.layers = layers;
                list.cited[units].insert(0);
            }
            End::Closed | End::Spent => {
                let enough = base(seek.total, paid(&seek.mix.demands, &told.charges));
                list.ask(units, 0, enough.min(told.value(units, 0)));
            }
        }
        for left in (1..=units).rev() {
            list.tell(left);
        }
        if list.lemmas.iter().map(|lemma| list.units_of(lemma)).sum::<usize>() > MAX_LIST_UNITS {
            list.lemmas.clear();
        }
        list
    }

    // Asks the node of the line that came first and whose value is so much.
    fn ask(&mut self, left: usize, node: u32, base: u64) -> Name {
        let table = &self.seek.table;
        let like = |&node: &u32| Some(table.like[node as usize]).filter(|&like| like != NONE);
        let line = std::iter::successors(Some(node), like);
        let first = line.filter(|&node| self.walker.told.value(left, node) >= base).last().unwrap_or(node);
        let most = self.asked[left].entry(first).or_insert(base);
        *most = base.max(*most);
        Name::Charge(first)
    }

    // The lemmas of so many units left: those of the nodes, then those of the states.
    fn tell(&mut self, left: usize) {
        for (node, least) in self.asked[left].clone() {
            let steps: Vec<(u64, u32)> = self.walker.told.steps(node).filter(|&(cost, _)| cost < least).collect();
            let cites = steps.iter().map(|&(cost, next)| self.ask(left - 1, next, least - cost)).collect();
            self.lemmas.push(Lemma { left, name: Name::Charge(node), least, cites });
        }
        for place in self.cited[left].clone() {
            let least = self.seek.total - self.layer(left).states[place as usize].cost;
            let cites = self.branch_cites(left, place as usize, least);
            self.lemmas.push(Lemma { left, name: Name::Branch(place), least, cites });
        }
    }

    fn layer(&self, left: usize) -> &'a Layer {
        &self.layers[self.seek.mix.units() - left]
    }

    fn branch_cites(&mut self, left: usize, place: usize, need: u64) -> Vec<Name> {
        let (mix, layer) = (self.seek.mix, self.layer(left));
        let ahead = mix.ahead(layer.left(place, mix));
        let mut starts = vec![0; mix.stations];
        let mut cites = Vec::new();
        for model in (0..mix.models).filter(|&model| layer.left(place, mix)[model] > 0) {
            let next = self.walker.next(layer, place, model, &mut starts);
            let rest = need.saturating_sub(next.cost - layer.states[place].cost);
            if mix.bound(&starts, &ahead, model, left - 1) < rest {
                cites.push(self.cite(left - 1, &next, &starts, rest));
            }
        }
        cites
    }

    // What shows that a state needs so much: the table, or a state that stands for it.
    fn cite(&mut self, left: usize, state: &State, starts: &[u64], need: u64) -> Name {
        let least = base(need, state.due);
        if self.walker.told.value(left, state.node) >= least {
            return self.ask(left, state.node, least);
        }
        let standing = self.layer(left).standing(self.seek.mix, state, starts).last();
        let first = standing.expect("a whole walk kept a state that stands for it");
        self.cited[left].insert(first);
        Name::Branch(first)
    }

    fn units_of(&self, lemma: &Lemma) -> usize {
        match lemma.name {
            Name::Charge(_) => self.seek.mix.models,
            Name::Branch(place) => {
                let left = self.layer(lemma.left).left(place as usize, self.seek.mix);
                left.iter().filter(|&&left| left > 0).count()
            }
        }
    }

    // The lemmas as lines of a certificate, by the units left.
    fn lines(&self) -> Vec<String> {
        let mut lines = Vec::new();
        let mut numbers: HashMap<(usize, Name), usize> = HashMap::new();
        for row in self.lemmas.chunk_by(|a, b| a.left == b.left).rev() {
            for lemma in row {
                let cites: Vec<usize> = lemma.cites.iter().map(|&cite| numbers[&(lemma.left - 1, cite)]).collect();
                numbers.insert((lemma.left, lemma.name), lines.len());
                lines.push(self.line(lemma, &joined(&cites)));
            }
        }
        lines
    }

    fn line(&self, lemma: &Lemma, cites: &str) -> String {
        let (mix, least) = (self.seek.mix, lemma.least);
        match lemma.name {
            Name::Charge(node) => {
                let starts = joined(self.seek.table.starts(node));
                format!("charge {} {starts} {least} {cites}", lemma.left)
            }
            Name::Branch(place) => {
                let layer = self.layer(lemma.left);
                let left = joined(layer.left(place as usize, mix));
                let starts = joined(layer.starts(place as usize, mix));
                format!("branch {left} {starts} {least} {cites}")
            }
        }
    }
}

/// The least base that shows a need of at least 1, with so much left to pay.
fn base(need: u64, due: u64) -> u64 {
    SCALE * (need - 1) + 1 + due
}

fn joined<T: ToString>(numbers: &[T]) -> String {
    if numbers.is_empty() {
        return "-".to_string();
    }
    numbers.iter().map(T::to_string).collect::<Vec<_>>().join(",")
}

/// The next problem of the input, and the units of its seek.
fn read_problem(numbers: &mut impl Iterator<Item = u64>) -> Option<(Mix, u64)> {
    let models = numbers.next()? as usize;
    let stations = numbers.next()? as usize;
    let (interval, length, limit) = (numbers.next()?, numbers.next()?, numbers.next()?);
    let demands = numbers.by_ref().take(models).collect();
    let work = numbers.by_ref().take(models * stations).collect();
    Some((Mix { models, stations, interval, length, demands, work }, limit))
}

fn main() {
    let lists = std::env::args().any(|word| word == "--list");
    let mut text = String::new();
    std::io::stdin().read_to_string(&mut text).expect("the problems can't be read");
    let mut numbers = text.split_whitespace().map(|word| word.parse().expect("a number"));
    while let Some((mix, limit)) = read_problem(&mut numbers) {
        let began = Instant::now();
        let mut seek = Seek::of(&mix, limit);
        let end = seek.run();
        let list = List::of(&seek, &end);
        let seconds = began.elapsed().as_secs_f64();
        if lists {
            let models: Vec<u32> = seek.sequence.iter().map(|model| model + 1).collect();
            println!("sequence {}", joined(&models));
            println!("charges {}", joined(&list.walker.told.charges));
            list.lines().iter().for_each(|line| println!("{line}"));
        }
        println!(
            "used {} kept-before-test {} total {} seconds {seconds:.3}",
            limit - seek.units,
            list.lemmas.len(),
            seek.total
        );
    }
}
