//! Random pasts of a plan, and the route promise looked at on them without any cleverness.
use crate::cab::survey;
use crate::random::Random;
use crate::reference::{Answer, Ask, Call, Ground, Phase, Plan, Tables, FAR};
use std::collections::BTreeMap;

/// The grounds at hand and the calls, each of which names one of them.
#[derive(Clone, Debug)]
pub struct Past {
    pub grounds: Vec<Ground>,
    /// How long the tables are when they are handed over whole.
    pub whole: Tables,
    pub calls: Vec<Call>,
}

impl Random {
    fn within(&mut self, low: u64, high: u64) -> u64 {
        low + self.below(high - low + 1)
    }

    fn pick<T: Copy>(&mut self, from: &[T]) -> T {
        from[self.below(from.len() as u64) as usize]
    }

    /// True so often in a hundred.
    fn chance(&mut self, percent: u64) -> bool {
        self.below(100) < percent
    }
}

/// How large the grounds are.
#[derive(Clone, Copy, PartialEq, Eq)]
pub enum Size {
    Small,
    Medium,
    Large,
}

fn grid(random: &mut Random, size: Size) -> Ground {
    let (least, most) = match size {
        Size::Small => (1, 6),
        Size::Medium => (1, 16),
        Size::Large => (20, 64),
    };
    let (rows, columns) = (random.within(least, most) as u32, random.within(least, most) as u32);
    let base = match random.below(4) {
        0 | 1 => 1,
        2 => random.within(1, 20) as u32,
        _ => random.within(1, 1_000) as u32,
    };
    Ground::grid(rows, columns, base)
}

type Arcs = Vec<(u32, u32, u32)>;

/// A table of arcs, mostly with a tree among them that reaches every place from place 0, often in both directions.
fn arcs(random: &mut Random, size: Size) -> (u32, Arcs) {
    let n = match size {
        Size::Small => random.within(1, 14),
        Size::Medium => random.within(1, 120),
        Size::Large => random.within(500, 4_000),
    };
    let most = random.pick(&[3, 20, 300, 10_000]);
    let mut arcs = Vec::new();
    if random.chance(85) {
        let back = random.pick(&[0, 60, 100]);
        for new in 1..n {
            // a long tree: the older place is mostly one of the last few
            let old = if random.chance(70) { new - 1 - random.below(new.min(3)) } else { random.below(new) };
            arcs.push((old as u32, new as u32, random.within(1, most) as u32));
            if random.chance(back) {
                arcs.push((new as u32, old as u32, random.within(1, most) as u32));
            }
        }
    }
    let dense = random.pick(&[0, 1, 2, 4]);
    for _ in 0..random.below(n * dense + 2) {
        arcs.push((random.below(n) as u32, random.below(n) as u32, random.within(1, most) as u32));
    }
    if random.chance(30) {
        for k in (1..arcs.len()).rev() {
            arcs.swap(k, random.below(k as u64 + 1) as usize);
        }
    }
    (n as u32, arcs)
}

/// Lawful heights: none, those surveyed from a place, or a part of these.
fn heights(random: &mut Random, n: u32, arcs: &Arcs) -> Vec<u32> {
    let from = if random.chance(50) { 0 } else { random.below(n as u64) as u32 };
    let eighths = random.pick(&[0, 8, 8, 8, 3, 7]);
    let flat = vec![0; n as usize];
    match survey(from, n, arcs) {
        Some(sums) => sums.iter().map(|s| (*s as u64 * eighths / 8) as u32).collect(),
        None if random.chance(50) => {
            // as if a dear arc led from there to every place
            let mut more = arcs.clone();
            more.extend((0..n).map(|p| (from, p, 10_000)));
            survey(from, n, &more).unwrap_or(flat)
        }
        None => flat,
    }
}

/// A ground, and a second one with the same arcs and other estimates where there is one.
fn ground(random: &mut Random, size: Size) -> (Ground, Option<Ground>) {
    let (mut ground, mut twin) = if random.chance(50) {
        (grid(random, size), None)
    } else {
        let (n, arcs) = arcs(random, size);
        let first = Ground::roads(n, &arcs, &heights(random, n, &arcs));
        let second = Ground::roads(n, &arcs, &heights(random, n, &arcs));
        (first, Some(second))
    };
    let layers = random.pick(&[0, 0, 0, 0, 0, 1, 1, 1, 2]);
    for _ in 0..layers {
        let beyond = if random.chance(10) { 2 } else { 0 };
        let at = random.below(ground.n as u64 + beyond) as u32;
        ground = Ground::pickup(&ground, at);
        twin = twin.map(|t| Ground::pickup(&t, at));
    }
    (ground, twin)
}

/// What the calls so far make known, to choose further ones by.
struct Maker<'a> {
    random: Random,
    grounds: &'a [Ground],
    whole: Tables,
    /// The ground of the last accepted Begin.
    current: Option<usize>,
    here: u32,
    landing: u32,
    /// The reference carries the calls out, so that the route is known: what happens to its arcs matters most.
    plan: Plan,
    route: Vec<u32>,
    calls: Vec<Call>,
}

impl Maker<'_> {
    fn ground(&self) -> &Ground {
        &self.grounds[self.current.unwrap_or(0)]
    }

    fn place(&mut self) -> u32 {
        let n = self.ground().n as u64;
        if n == 0 || self.random.chance(3) {
            let far = self.random.chance(30);
            return if far { FAR } else { (n + self.random.below(3)) as u32 };
        }
        self.random.below(n) as u32
    }

    fn slack(&mut self) -> u32 {
        match self.random.below(20) {
            0 => self.random.pick(&[0, 1, 15, 161, 1_000, FAR]),
            1..=6 => 16,
            7..=9 => self.random.pick(&[17, 24, 32]),
            10 => 160,
            _ => self.random.within(16, 160) as u32,
        }
    }

    fn arc(&mut self) -> u32 {
        let m = self.ground().m as u64;
        if m == 0 || self.random.chance(3) {
            let far = self.random.chance(30);
            return if far { FAR } else { (m + self.random.below(3)) as u32 };
        }
        if !self.route.is_empty() && self.random.chance(50) {
            return self.random.pick(&self.route);
        }
        if self.random.chance(25) {
            // one that leaves here or enters the landing
            let near: Vec<u32> = (0..m as usize)
                .filter(|&j| self.ground().tail[j] == self.here || self.ground().head[j] == self.landing)
                .map(|j| j as u32)
                .collect();
            if !near.is_empty() {
                return self.random.pick(&near);
            }
        }
        self.random.below(m) as u32
    }

    fn cost(&mut self, arc: u32) -> u32 {
        let least = self.ground().least.get(arc as usize).copied().unwrap_or(1);
        match self.random.below(20) {
            0 => self.random.pick(&[least - 1, 10_001, FAR, 1]),
            1..=3 => 0,
            4..=9 => least,
            10..=12 => 10_000.min(least + self.random.below(3) as u32),
            13..=16 => 10_000.min(least * self.random.within(1, 4) as u32),
            _ => self.random.within(least as u64, 10_000) as u32,
        }
    }

    /// Another ground by its size, if there is one.
    fn foreign(&mut self) -> Option<usize> {
        let size = (self.ground().n, self.ground().m);
        let others: Vec<usize> = (0..self.grounds.len()).filter(|&i| (self.grounds[i].n, self.grounds[i].m) != size).collect();
        if others.is_empty() { None } else { Some(self.random.pick(&others)) }
    }

    fn tables(&mut self, n: u32, m: u32) -> Tables {
        let mut tables = self.whole;
        if self.random.chance(3) {
            let which = self.random.below(3);
            let needed = if which == 1 { m } else { n };
            let entries = if self.random.chance(50) { needed.saturating_sub(1) as usize } else { self.random.below(needed as u64 + 1) as usize };
            match which {
                0 => tables.places = entries.min(tables.places),
                1 => tables.costs = entries.min(tables.costs),
                _ => tables.queue = entries.min(tables.queue),
            }
        }
        tables
    }

    fn say(&mut self, ask: Ask) {
        let mut ground = self.current.unwrap_or(0);
        if self.random.chance(2) {
            ground = self.foreign().unwrap_or(ground);
        }
        let (n, m) = (self.ground().n, self.ground().m);
        let tables = self.tables(n, m);
        self.push(Call { ground, tables, ask });
    }

    fn push(&mut self, call: Call) {
        match (&call.ask, self.plan.call(self.grounds, &call)) {
            (_, Answer::Route { arcs, .. }) => self.route = arcs,
            (Ask::Move { place }, Answer::Done) => self.here = *place,
            _ => {}
        }
        self.calls.push(call);
    }

    fn begin(&mut self) {
        let first = self.current.is_none();
        let chosen = if first && self.random.chance(90) { 0 } else { self.random.below(self.grounds.len() as u64) as usize };
        let (n, m) = (self.grounds[chosen].n, self.grounds[chosen].m);
        let apart = self.random.chance(60);
        let place = |random: &mut Random, last: bool| {
            let part = (n / 4).max(1);
            match (random.chance(4), apart) {
                (true, _) => n + random.below(2) as u32,
                (_, false) => random.below(n.max(1) as u64) as u32,
                _ if last => n.saturating_sub(1 + random.below(part as u64) as u32),
                _ => random.below(part as u64) as u32,
            }
        };
        let (here, landing) = (place(&mut self.random, false), place(&mut self.random, true));
        let slack = self.slack();
        let tables = self.tables(n, m);
        let call = Call { ground: chosen, tables, ask: Ask::Begin { here, landing, slack } };
        if here < n && landing < n && (16..=160).contains(&slack) && !call.short(n, m) {
            self.current = Some(chosen);
            (self.here, self.landing) = (here, landing);
            self.route.clear();
        }
        self.push(call);
    }

    fn search(&mut self) {
        let settled = self.plan.begun.as_ref().is_some_and(|b| b.2.phase == Phase::Settled);
        if settled && self.random.chance(90) {
            // something has to happen first, best on the route
            for _ in 0..self.random.within(1, 4) {
                self.set();
            }
        }
        let twice = 2 * self.ground().n as u64;
        let turns = match self.random.below(10) {
            0..=2 => 65_535,
            3 => twice.min(65_535),
            4 | 5 => self.random.below(twice + 2),
            _ => self.random.below(5),
        };
        self.say(Ask::Search { turns: turns as u16 });
        if turns >= twice && self.random.chance(70) {
            self.route();
        }
    }

    fn route(&mut self) {
        let list = if self.random.chance(15) { self.random.below(4) } else { self.ground().n as u64 + self.random.below(2) } as usize;
        self.say(Ask::Route { list });
    }

    /// Many arcs at once get dearer, so that the estimates say little.
    fn weather(&mut self) {
        let part = self.random.pick(&[5, 20, 50]);
        let most = self.random.pick(&[2, 6, 30]);
        for j in 0..self.ground().m {
            if self.random.chance(part) {
                let cost = 10_000.min(self.ground().least[j as usize] * self.random.within(1, most) as u32);
                self.say(Ask::Set { arc: j, cost });
            }
        }
    }

    fn set(&mut self) {
        let arc = self.arc();
        let cost = self.cost(arc);
        self.say(Ask::Set { arc, cost });
    }

    /// All arcs at a place shut or opened again.
    fn fence(&mut self) {
        let p = if self.random.chance(50) { self.here } else { self.landing };
        let shut = self.random.chance(40);
        for j in 0..self.ground().m {
            let (tail, head, least) = (self.ground().tail[j as usize], self.ground().head[j as usize], self.ground().least[j as usize]);
            if tail == p || head == p {
                self.say(Ask::Set { arc: j, cost: if shut { 0 } else { least } });
            }
        }
    }

    /// Every shut arc is opened again; where none is, the plan begins anew.
    fn mend(&mut self) {
        let Some((_, _, state)) = &self.plan.begun else { return };
        let shut: Vec<u32> = (0..self.ground().m).filter(|j| state.cost[*j as usize] == FAR).collect();
        if shut.is_empty() {
            return self.begin();
        }
        for j in shut {
            let least = self.ground().least[j as usize];
            self.say(Ask::Set { arc: j, cost: least });
        }
    }

    fn any(&mut self) {
        let no_way = self.plan.begun.as_ref().is_some_and(|b| b.2.phase == Phase::Settled && b.2.g[b.2.here as usize] == FAR);
        if no_way && self.random.chance(40) {
            return self.mend();
        }
        match self.random.below(100) {
            0..=29 => {
                for _ in 0..self.random.pick(&[1, 1, 1, 2, 5]) {
                    self.set();
                }
            }
            30..=64 => self.search(),
            65..=74 => self.route(),
            75..=81 => {
                let leaving: Vec<u32> = (0..self.ground().m as usize)
                    .filter(|&j| self.ground().tail[j] == self.here)
                    .map(|j| self.ground().head[j])
                    .collect();
                let place = if leaving.is_empty() || self.random.chance(40) { self.place() } else { self.random.pick(&leaving) };
                self.say(Ask::Move { place });
            }
            82..=87 => {
                let slack = self.slack();
                self.say(Ask::Stretch { slack });
            }
            88..=91 => {
                let arcs = (0..self.random.below(7)).map(|_| self.arc()).collect();
                self.say(Ask::Sum { arcs });
            }
            92 => self.fence(),
            93..=94 => self.weather(),
            95..=97 => {
                if let Some(last) = self.calls.last().filter(|c| !matches!(c.ask, Ask::Begin { .. })) {
                    let again = last.clone();
                    self.push(again);
                }
            }
            _ => self.begin(),
        }
    }
}

/// The past of a seed on small and medium grounds.
pub fn past(seed: u64) -> Past {
    let mut random = Random::new(seed.wrapping_mul(0x2545_f491_4f6c_dd1d));
    random.next();
    let size = if random.chance(40) { Size::Medium } else { Size::Small };
    past_on(random, size)
}

/// The past of a seed on a large ground.
pub fn large_past(seed: u64) -> Past {
    past_on(Random::new(!seed.wrapping_mul(0x2545_f491_4f6c_dd1d)), Size::Large)
}

fn past_on(mut random: Random, size: Size) -> Past {
    let (first, twin) = ground(&mut random, size);
    let (other, _) = ground(&mut random, Size::Small);
    let mut grounds = vec![first];
    grounds.extend(twin);
    grounds.push(other);
    let places = grounds.iter().map(|g| g.n).max().unwrap() as usize + random.below(3) as usize;
    let arcs = grounds.iter().map(|g| g.m).max().unwrap() as usize + random.below(3) as usize;
    let whole = Tables { places, costs: arcs, queue: places + random.below(3) as usize };
    let wanted = random.within(5, 120) as usize;
    let early = if random.chance(20) { random.within(1, 4) } else { 0 };
    let mut maker = Maker { random, grounds: &grounds, whole, current: None, here: 0, landing: 0, plan: Plan::default(), route: vec![], calls: vec![] };
    for _ in 0..early {
        maker.any();
    }
    for _ in 0..20 {
        if maker.current.is_none() {
            maker.begin();
        }
    }
    if maker.random.chance(60) {
        maker.weather();
    }
    let wanted = maker.calls.len() + wanted;
    while maker.calls.len() < wanted {
        maker.any();
    }
    let calls = maker.calls;
    Past { grounds, whole, calls }
}

/// How often each kind of answer was given.
#[derive(Default)]
pub struct Tally {
    pub pasts: u64,
    pub calls: u64,
    pub done: u64,
    pub settled: u64,
    pub cut: u64,
    pub turns: u64,
    /// Searches with no turn, up to 5, up to 20, and more.
    pub efforts: [u64; 4],
    pub routes: u64,
    pub longest: usize,
    pub sums: u64,
    pub refused: BTreeMap<u32, u64>,
    /// Settled plans looked at, with a way and without.
    pub with_way: u64,
    pub without: u64,
    /// Settled routes that are dearer than the cheapest.
    pub dearer: u64,
    /// Searches given twice the places or more.
    pub ample: u64,
}

impl Tally {
    pub fn add(&mut self, answer: &Answer) {
        self.calls += 1;
        if let Answer::Settled { turns, .. } | Answer::Cut { turns, .. } = answer {
            self.efforts[match turns {
                0 => 0,
                1..=5 => 1,
                6..=20 => 2,
                _ => 3,
            }] += 1;
        }
        match answer {
            Answer::Done => self.done += 1,
            Answer::Settled { turns, .. } => {
                self.settled += 1;
                self.turns += *turns as u64;
            }
            Answer::Cut { turns, .. } => {
                self.cut += 1;
                self.turns += *turns as u64;
            }
            Answer::Route { arcs, .. } => {
                self.routes += 1;
                self.longest = self.longest.max(arcs.len());
            }
            Answer::Sum(_) => self.sums += 1,
            Answer::Refused(number) => *self.refused.entry(*number).or_insert(0) += 1,
        }
    }
}

impl std::fmt::Display for Tally {
    fn fmt(&self, f: &mut std::fmt::Formatter) -> std::fmt::Result {
        write!(
            f,
            "{} pasts, {} calls: {} done, {} settled, {} cut, {} turns (searches with 0, 1 to 5, 6 to 20, more: {:?}), {} routes (up to {} arcs), {} sums, refused {:?}",
            self.pasts, self.calls, self.done, self.settled, self.cut, self.turns, self.efforts, self.routes, self.longest, self.sums, self.refused
        )
    }
}

/// The cheapest sum of an open chain between two places.
fn cheapest(ground: &Ground, cost: &[u32], from: u32, to: u32) -> Option<u64> {
    let n = ground.n as usize;
    let mut sums: Vec<Option<u64>> = vec![None; n];
    let mut done = vec![false; n];
    sums[from as usize] = Some(0);
    let mut leaving = vec![Vec::new(); n];
    for j in 0..ground.m as usize {
        if cost[j] != FAR {
            leaving[ground.tail[j] as usize].push(j);
        }
    }
    loop {
        let (sum, p) = (0..n).filter(|&p| !done[p]).filter_map(|p| sums[p].map(|s| (s, p))).min()?;
        if p == to as usize {
            return Some(sum);
        }
        done[p] = true;
        for &j in &leaving[p] {
            let h = ground.head[j] as usize;
            let by = sum + cost[j] as u64;
            if sums[h].is_none_or(|s| by < s) {
                sums[h] = Some(by);
            }
        }
    }
}

/// What the accepted calls gave last, read off the calls and answers alone.
struct Standing {
    ground: usize,
    cost: Vec<u32>,
    here: u32,
    landing: u32,
    slack: u32,
    /// The turns answered since something changed.
    turns: u64,
    settled: bool,
}

/// Runs a past on the reference and looks, at every settled plan, whether what is promised of it is so.
pub fn check(past: &Past, tally: &mut Tally) -> Result<(), String> {
    let mut plan = Plan::default();
    let mut standing: Option<Standing> = None;
    tally.pasts += 1;
    for (k, call) in past.calls.iter().enumerate() {
        let answer = plan.call(&past.grounds, call);
        tally.add(&answer);
        let fail = |what: String| Err(format!("call {k}, {call:?} answered {answer:?}: {what}"));
        let accepted = !matches!(answer, Answer::Refused(_));
        if let (Ask::Begin { here, landing, slack }, true) = (&call.ask, accepted) {
            let cost = past.grounds[call.ground].least.clone();
            let (here, landing, slack) = (*here, *landing, *slack);
            standing = Some(Standing { ground: call.ground, cost, here, landing, slack, turns: 0, settled: false });
            continue;
        }
        let Some(now) = &mut standing else {
            if answer != Answer::Refused(1) && !matches!(call.ask, Ask::Begin { .. }) {
                return fail("nothing had begun".into());
            }
            continue;
        };
        let ground = &past.grounds[now.ground];
        match (&call.ask, &answer) {
            (Ask::Route { .. }, Answer::Refused(8)) if now.settled => return fail("the plan is settled".into()),
            (Ask::Route { .. }, Answer::Refused(9 | 10)) if !now.settled => return fail("the plan is not settled".into()),
            (Ask::Route { .. }, Answer::Route { .. }) if !now.settled => return fail("the plan is not settled".into()),
            (_, Answer::Refused(_)) => continue,
            (Ask::Set { arc, cost }, _) => {
                now.cost[*arc as usize] = if *cost == 0 { FAR } else { *cost };
                (now.turns, now.settled) = (0, false);
            }
            (Ask::Move { place }, _) => {
                now.here = *place;
                (now.turns, now.settled) = (0, false);
            }
            (Ask::Stretch { slack }, _) => {
                now.slack = *slack;
                (now.turns, now.settled) = (0, false);
            }
            (Ask::Search { turns: given }, Answer::Settled { turns, count } | Answer::Cut { turns, count }) => {
                now.turns += *turns as u64;
                let was = now.settled;
                now.settled = matches!(answer, Answer::Settled { .. });
                let ample = *given as u64 >= 2 * ground.n as u64;
                tally.ample += ample as u64;
                if *count as u64 != now.turns || now.turns > 2 * ground.n as u64 || *turns > *given as u32 {
                    return fail(format!("{} turns since something changed, {} places", now.turns, ground.n));
                }
                if (ample && !now.settled) || (was && (!now.settled || *turns > 0)) || (!now.settled && *turns < *given as u32) {
                    return fail("it should have been settled".into());
                }
                if now.settled {
                    if let Err(told) = settled(past, &mut plan, now, call.ground, tally) {
                        return fail(told);
                    }
                }
            }
            _ => {}
        }
    }
    Ok(())
}

fn settled(past: &Past, plan: &mut Plan, now: &Standing, ground: usize, tally: &mut Tally) -> Result<(), String> {
    let on = &past.grounds[now.ground];
    let list = on.n as usize;
    let answer = plan.call(&past.grounds, &Call { ground, tables: past.whole, ask: Ask::Route { list } });
    let best = cheapest(on, &now.cost, now.here, now.landing);
    let (arcs, sum, best) = match (answer, best) {
        (Answer::Refused(9), None) => {
            tally.without += 1;
            return Ok(());
        }
        (Answer::Route { arcs, sum }, Some(best)) => (arcs, sum, best),
        (answer, best) => return Err(format!("asked for the route it says {answer:?}, and the cheapest is {best:?}")),
    };
    tally.with_way += 1;
    let mut seen = vec![false; on.n as usize];
    let mut p = now.here;
    let mut total = 0u64;
    seen[p as usize] = true;
    for &j in &arcs {
        let j = j as usize;
        if on.tail[j] != p || now.cost[j] == FAR || seen[on.head[j] as usize] {
            return Err(format!("arc {j} of the route {arcs:?} does not follow, is shut, or leads to a place it passed"));
        }
        p = on.head[j];
        seen[p as usize] = true;
        total += now.cost[j] as u64;
    }
    if p != now.landing || total != sum as u64 || 16 * total > now.slack as u64 * best {
        return Err(format!("route {arcs:?}, sum {sum}, slack {}, cheapest {best}", now.slack));
    }
    tally.dearer += (total > best) as u64;
    Ok(())
}

/// Many pasts on the reference, with all that is promised of them.
pub fn promise(from: u64, count: u64, make: fn(u64) -> Past) {
    let mut tally = Tally::default();
    for seed in from..from + count {
        let past = make(seed);
        if seed % 8 == 0 {
            assert!(past.grounds.iter().all(Ground::lawful), "seed {seed}: a ground is not lawful");
        }
        if let Err(told) = check(&past, &mut tally) {
            panic!("seed {seed}: {told}");
        }
    }
    println!("reference: {tally}");
    println!(
        "reference: the promise held at {} settled plans with a way ({} routes dearer than the cheapest) and {} without; {} searches had twice the places",
        tally.with_way, tally.dearer, tally.without, tally.ample
    );
}
