//! Planners side by side: every call of a past on each, every answer compared, and what their tables show where they tell.
use crate::pasts::{Past, Tally};
use crate::plain;
use crate::random::Random;
use crate::reference::{self, Answer, Call, Ground, Made};

/// A planner over the grounds of a past.
pub trait Planner {
    fn call(&mut self, call: &Call) -> Answer;

    /// The state that its tables show, as far as the ground of the last accepted Begin goes; none before that, or if it does not tell.
    fn shown(&self) -> Option<Shown> {
        None
    }
}

/// What tables show: a state of the method.
pub type Shown = reference::State;

/// The reference as a planner.
pub struct Reference<'a> {
    grounds: &'a [Ground],
    plan: reference::Plan,
}

impl<'a> Reference<'a> {
    pub fn new(past: &'a Past) -> Self {
        Reference { grounds: &past.grounds, plan: reference::Plan::default() }
    }
}

impl Planner for Reference<'_> {
    fn call(&mut self, call: &Call) -> Answer {
        self.plan.call(self.grounds, call)
    }

    fn shown(&self) -> Option<Shown> {
        let (_, _, state) = self.plan.begun.as_ref()?;
        Some(state.clone())
    }
}

/// A ground of a past for the plain planner: worked out where it can be, else told in full.
enum Land {
    Table(plain::Table),
    Cells(plain::Cells),
    Layer(plain::Layer<plain::Cells>),
}

impl Land {
    fn new(ground: &Ground) -> Land {
        let cells = |ground: &Ground| match ground.made {
            Made::Grid { rows, columns, base } => Some(plain::Cells::new(rows, columns, base)),
            _ => None,
        };
        let layer = match &ground.made {
            Made::Pickup { below, at } if *at < below.n => cells(below).map(|cells| Land::Layer(plain::Layer::new(cells, *at))),
            _ => None,
        };
        cells(ground).map(Land::Cells).or(layer).unwrap_or_else(|| Land::Table(plain::Table::new(ground)))
    }
}

/// The plain planner with tables of its own, full of anything at first.
pub struct Plain {
    nets: Vec<Land>,
    most: (usize, usize),
    plan: plain::Plan,
    places: Vec<plain::Place>,
    costs: Vec<u32>,
    queue: Vec<plain::Entry>,
    untouched: (plain::Place, u32),
}

impl Plain {
    pub fn new(past: &Past, seed: u64) -> Self {
        let mut random = Random::new(seed);
        let mut place = plain::Place::default();
        (place.g, place.rhs, place.closed) = (random.next() as u32, random.next() as u32, random.below(2) == 0);
        let cost = random.next() as u32;
        Plain {
            nets: past.grounds.iter().map(Land::new).collect(),
            most: past.grounds.iter().fold((0, 0), |(n, m), g| (n.max(g.n as usize), m.max(g.m as usize))),
            plan: plain::Plan::default(),
            places: vec![place; past.whole.places],
            costs: vec![cost; past.whole.costs],
            queue: vec![plain::Entry::default(); past.whole.queue],
            untouched: (place, cost),
        }
    }

    /// Whether the entries beyond all grounds are as at first.
    fn beyond(&self) -> bool {
        let (n, m) = self.most;
        self.places[n..].iter().all(|p| *p == self.untouched.0) && self.costs[m..].iter().all(|c| *c == self.untouched.1)
    }
}

impl Planner for Plain {
    fn call(&mut self, call: &Call) -> Answer {
        let mut lent = plain::Lent {
            places: &mut self.places[..call.tables.places],
            costs: &mut self.costs[..call.tables.costs],
            queue: &mut self.queue[..call.tables.queue],
        };
        let answer = match &self.nets[call.ground] {
            Land::Table(net) => self.plan.call(net, &mut lent, call),
            Land::Cells(net) => self.plan.call(net, &mut lent, call),
            Land::Layer(net) => self.plan.call(net, &mut lent, call),
        };
        assert!(self.beyond(), "an entry beyond the needed ones was changed by {call:?}");
        answer
    }

    fn shown(&self) -> Option<Shown> {
        let (n, m) = self.plan.begun?;
        let places = &self.places[..n as usize];
        Some(Shown {
            cost: self.costs[..m as usize].to_vec(),
            here: self.plan.here,
            landing: self.plan.landing,
            slack: self.plan.slack,
            g: places.iter().map(|p| p.g).collect(),
            closed: places.iter().map(|p| p.closed).collect(),
            count: self.plan.count,
            phase: self.plan.phase,
        })
    }
}

/// Carries out a past on two planners. Where they differ, it tells the call and both sides.
pub fn compare(past: &Past, one: &mut dyn Planner, other: &mut dyn Planner, tally: &mut Tally) -> Result<(), String> {
    tally.pasts += 1;
    for (k, call) in past.calls.iter().enumerate() {
        let (a, b) = (one.call(call), other.call(call));
        tally.add(&a);
        if a != b {
            return Err(format!("call {k}, {call:?}: {a:?} and {b:?}"));
        }
        if let (Some(a), Some(b)) = (one.shown(), other.shown()) {
            if a != b {
                return Err(format!("after call {k}, {call:?}: {a:?} and {b:?}"));
            }
        }
    }
    Ok(())
}

/// Makes a planner for a past; the number may serve to fill its tables with something.
pub type Maker = dyn for<'a> Fn(&'a Past, u64) -> Box<dyn Planner + 'a>;

/// Leaves out calls as long as the planners still differ. A Begin stays, since it decides which ground the calls after it may be given.
fn shortened(past: &Past, seed: u64, one: &Maker, other: &Maker) -> Past {
    let differ = |past: &Past| compare(past, &mut *one(past, seed), &mut *other(past, seed), &mut Tally::default()).is_err();
    let mut past = past.clone();
    let mut k = past.calls.len();
    while k > 0 {
        k -= 1;
        if matches!(past.calls[k].ask, reference::Ask::Begin { .. }) {
            continue;
        }
        let call = past.calls.remove(k);
        if !differ(&past) {
            past.calls.insert(k, call);
        }
    }
    past
}

/// Carries out the pasts of many seeds on two planners, and stops with a short past where they differ.
pub fn compare_many(name: &str, seeds: std::ops::Range<u64>, make: fn(u64) -> Past, one: &Maker, other: &Maker) {
    let mut tally = Tally::default();
    for seed in seeds {
        let past = make(seed);
        let result = compare(&past, &mut *one(&past, seed), &mut *other(&past, seed), &mut tally);
        if let Err(told) = result {
            let short = shortened(&past, seed, one, other);
            let again = compare(&short, &mut *one(&short, seed), &mut *other(&short, seed), &mut Tally::default());
            let sizes: Vec<(u32, u32, &reference::Made)> = short.grounds.iter().map(|g| (g.n, g.m, &g.made)).collect();
            panic!("{name}, seed {seed}: {told}\nshortened: {again:?}\ngrounds {sizes:?}\ncalls {:#?}", short.calls);
        }
    }
    println!("{name}: equal on {tally}");
}

/// The plain planner beside the reference.
pub fn plain_beside_reference(from: u64, count: u64, make: fn(u64) -> Past) {
    let seeds = from..from + count;
    let plain: &Maker = &|past, seed| Box::new(Plain::new(past, seed));
    compare_many("plain and reference", seeds, make, &|past, _| Box::new(Reference::new(past)), plain);
}

/// The time of the plain planner on the largest grid: the first search, and the repairs after it, where each time the machine drives a few arcs
/// of its route and some arcs near it change.
pub fn time_plain() {
    let net = plain::Cells::new(128, 128, 10);
    let (n, m) = (128 * 128, 8 * 128 * 128);
    let mut places = vec![plain::Place::default(); n];
    let mut costs = vec![0; m];
    let mut queue = vec![plain::Entry::default(); n];
    let mut list = vec![0; n];
    for slack in [16, 24, 48] {
        let mut random = Random::new(3);
        let mut lent = plain::Lent { places: &mut places, costs: &mut costs, queue: &mut queue };
        let mut plan = plain::Plan::default();
        plan.begin(&net, 0, n as u32 - 1, slack, &mut lent).unwrap();
        for j in 0..m as u32 {
            plan.set(&net, j, 70 + random.below(200) as u32, &mut lent).unwrap();
        }
        let mut times = [std::time::Duration::ZERO; 2];
        let mut turns = [0u32; 2];
        let mut repairs = 0;
        for round in 0..60 {
            let start = std::time::Instant::now();
            let (settled, made) = plan.search(&net, u16::MAX, &mut lent).unwrap();
            assert!(settled);
            let part = (round > 0) as usize;
            times[part] += start.elapsed();
            turns[part] += made;
            repairs = round;
            let (arcs, _) = plan.route(&net, &lent, &mut list).unwrap();
            if arcs < 8 {
                break;
            }
            plan.move_to(list[2] / 8).unwrap();
            for &j in &list[2..7] {
                plan.set(&net, j, 70 + random.below(400) as u32, &mut lent).unwrap();
            }
        }
        let each = |k: usize| times[k].as_nanos() as f64 / turns[k].max(1) as f64;
        println!(
            "plain, 128 x 128 grid, slack {slack}: first search {} turns, {:.1} ms, {:.0} ns a turn; {repairs} repairs {} turns, {:.1} ms, {:.0} ns a turn",
            turns[0],
            times[0].as_secs_f64() * 1e3,
            each(0),
            turns[1],
            times[1].as_secs_f64() * 1e3,
            each(1)
        );
    }
}
