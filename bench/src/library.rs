//! The proved planner on the pasts: a past goes over whole, and its answers are then handed out one by one.
use crate::abi::{self, Script, Stretch, Strip, Told};
use crate::pasts::Past;
use crate::plain;
use crate::plan::{self, Maker, Planner, Reference};
use crate::random::Random;
use crate::reference::{Answer, Ask, Call, Estimate, Ground, Made, Tables};
use std::collections::VecDeque;
use std::time::Instant;

/// The heights of roads.
fn heights(ground: &Ground) -> &[u32] {
    match &ground.estimate {
        Estimate::Heights(heights) => heights,
        _ => panic!("roads estimate by heights"),
    }
}

impl Script {
    /// Writes a ground down, all but its calls.
    fn ground(&mut self, ground: &Ground) -> Stretch {
        match &ground.made {
            Made::Grid { rows, columns, base } => Stretch { first: *rows, second: *columns, third: *base, ..Stretch::default() },
            Made::Roads => {
                let (strips, heights_from) = (self.strips.len() as u32, self.heights.len() as u32);
                let strip = |j: usize| Strip { tail: ground.tail[j], head: ground.head[j], least: ground.least[j] };
                self.strips.extend((0..ground.m as usize).map(strip));
                self.heights.extend(heights(ground));
                Stretch {
                    kind: 1,
                    first: ground.n,
                    strips_from: strips,
                    strips_to: self.strips.len() as u32,
                    heights_from,
                    heights_to: self.heights.len() as u32,
                    ..Stretch::default()
                }
            }
            Made::Pickup { below, at } => {
                let mut stretch = self.ground(below);
                assert!(stretch.layers < 2);
                if stretch.layers == 0 {
                    stretch.lower = *at;
                } else {
                    stretch.upper = *at;
                }
                stretch.layers += 1;
                stretch
            }
        }
    }

    fn ask(&mut self, call: &Call) {
        let Tables { places, costs, queue } = call.tables;
        let mut ask = abi::Ask { costs: costs as u32, places: places as u32, queue: queue as u32, ..abi::Ask::default() };
        (ask.kind, ask.first, ask.second, ask.third) = match &call.ask {
            Ask::Begin { here, landing, slack } => (0, *here, *landing, *slack),
            Ask::Set { arc, cost } => (1, *arc, *cost, 0),
            Ask::Move { place } => (2, *place, 0, 0),
            Ask::Stretch { slack } => (3, *slack, 0, 0),
            Ask::Search { turns } => (4, *turns as u32, 0, 0),
            Ask::Route { list } => {
                ask.list = *list as u32;
                (5, 0, 0, 0)
            }
            Ask::Sum { arcs } => {
                let from = self.listed.len() as u32;
                self.listed.extend(arcs);
                (6, from, self.listed.len() as u32, 0)
            }
        };
        self.asks.push(ask);
    }

    fn new(past: &Past) -> Script {
        let mut script = Script::default();
        let grounds: Vec<Stretch> = past.grounds.iter().map(|g| script.ground(g)).collect();
        for (k, call) in past.calls.iter().enumerate() {
            script.ask(call);
            if k == 0 || past.calls[k - 1].ground != call.ground {
                script.stretches.push(Stretch { asks_from: k as u32, ..grounds[call.ground] });
            }
            script.stretches.last_mut().unwrap().asks_to = k as u32 + 1;
        }
        script
    }
}

/// The answer, with its arcs if it is a route, taken from the front of the list.
fn answer(told: &Told, list: &mut VecDeque<u32>) -> Answer {
    let Told { kind, first, second } = *told;
    match kind {
        0 => Answer::Done,
        1 => Answer::Settled { turns: first, count: second },
        2 => Answer::Cut { turns: first, count: second },
        3 => Answer::Route { arcs: list.drain(..first as usize).collect(), sum: second },
        4 => Answer::Sum(first),
        5 => Answer::Refused(first),
        _ => panic!("a call was not answered"),
    }
}

pub struct Library {
    answers: VecDeque<Answer>,
}

impl Library {
    pub fn new(past: &Past, seed: u64) -> Self {
        let script = Script::new(past);
        let anything = Random::new(seed).next() as u32;
        let mut costs = vec![anything; past.whole.costs];
        let mut list = vec![u32::MAX; script.asks.iter().map(|a| a.list as usize).sum()];
        let told = abi::plan_run(anything, &script, &mut costs, &mut list);
        let most = past.grounds.iter().map(|g| g.m as usize).max().unwrap_or(0);
        assert!(costs[most..].iter().all(|c| *c == anything), "a cost beyond the needed ones was changed");
        let mut list = VecDeque::from(list);
        let answers = told.iter().map(|t| answer(t, &mut list)).collect();
        assert!(list.iter().all(|j| *j == u32::MAX), "an entry of a list beyond its route was changed");
        Library { answers }
    }
}

impl Planner for Library {
    fn call(&mut self, _: &Call) -> Answer {
        self.answers.pop_front().expect("an answer for every call")
    }
}

/// The library beside the reference on random pasts.
pub fn compare(from: u64, count: u64, make: fn(u64) -> Past) {
    let library: &Maker = &|past, seed| Box::new(Library::new(past, seed));
    plan::compare_many("library and reference", from..from + count, make, &|past, _| Box::new(Reference::new(past)), library);
}

/// Costs between the least and five times as much, and every tenth cell shut, as calls of Set.
fn weather(ground: &Ground, spared: [u32; 2], random: &mut Random) -> Vec<Ask> {
    let shut: Vec<bool> = (0..ground.n).map(|p| random.below(10) == 0 && !spared.contains(&p)).collect();
    let cost = |j: usize, random: &mut Random| {
        let least = ground.least[j] as u64;
        let dearer = least + random.below(4 * least + 1);
        if shut[ground.tail[j] as usize] || shut[ground.head[j] as usize] { 0 } else { dearer as u32 }
    };
    (0..ground.m as usize).map(|j| Ask::Set { arc: j as u32, cost: cost(j, random) }).collect()
}

/// How long one run takes at best, and what the last one gave.
fn best<T>(rounds: usize, mut run: impl FnMut() -> (T, f64)) -> (T, f64) {
    let first = run();
    (1..rounds).fold(first, |(_, least), _| {
        let (value, took) = run();
        (value, least.min(took))
    })
}

/// A past with one search of so many turns at its end, timed whole.
fn timed(past: &mut Past, turns: u16) -> (Answer, f64) {
    past.calls.last_mut().unwrap().ask = Ask::Search { turns };
    let script = Script::new(past);
    let mut costs = vec![0; past.whole.costs];
    best(7, || {
        let start = Instant::now();
        let told = abi::plan_run(0, &script, &mut costs, &mut []);
        let took = start.elapsed().as_secs_f64();
        (answer(told.last().unwrap(), &mut VecDeque::new()), took)
    })
}

/// The turns of a fresh search on the largest grid, beside the plain planner.
pub fn time() {
    let ground = Ground::grid(128, 128, 100);
    let net = plain::Cells::new(128, 128, 100);
    let landing = ground.n - 1;
    let asks = weather(&ground, [0, landing], &mut Random::new(11));
    let whole = Tables { places: ground.n as usize, costs: ground.m as usize, queue: ground.n as usize };
    for slack in [16, 24, 32, 160] {
        let begin = Ask::Begin { here: 0, landing, slack };
        let asks = [begin].into_iter().chain(asks.iter().cloned()).chain([Ask::Search { turns: 0 }]);
        let calls = asks.map(|ask| Call { ground: 0, tables: whole, ask }).collect();
        let mut past = Past { grounds: vec![ground.clone()], whole, calls };
        let (_, without) = timed(&mut past, 0);
        let (told, with) = timed(&mut past, u16::MAX);
        let Answer::Settled { turns, .. } = told else { panic!("{told:?}") };
        let proved = (with - without) * 1e9 / turns as f64;
        let mut places = vec![plain::Place::default(); whole.places];
        let mut costs = vec![0; whole.costs];
        let mut queue = vec![plain::Entry::default(); whole.queue];
        past.calls.last_mut().unwrap().ask = Ask::Search { turns: 0 };
        let (made, took) = best(7, || {
            let mut lent = plain::Lent { places: &mut places, costs: &mut costs, queue: &mut queue };
            let mut plan = plain::Plan::default();
            for call in &past.calls {
                plan.call(&net, &mut lent, call);
            }
            let start = Instant::now();
            let (_, made) = plan.search(&net, u16::MAX, &mut lent).unwrap();
            (made, start.elapsed().as_secs_f64())
        });
        assert_eq!(made, turns);
        let plain = took * 1e9 / turns as f64;
        println!(
            "plan, 128 x 128 grid, slack {slack}: {turns} turns, {proved:.0} ns a turn, plain Rust {plain:.0} ns, ratio {:.1}; Begin and {} Sets {:.1} ms",
            proved / plain,
            ground.m,
            without * 1e3
        );
    }
}
