//! The planner once more, straight from its rules: nothing is kept that can be worked out. Every turn looks at every arc and every
//! place. It is slow on purpose, and there to compare other planners with.

pub const FAR: u32 = u32::MAX;

/// How a ground estimates.
#[derive(Clone, Debug, PartialEq, Eq)]
pub enum Estimate {
    /// Cells in rows of so many columns, with a base.
    Cells { columns: u32, base: u32 },
    /// By how much the second place stands higher.
    Heights(Vec<u32>),
    /// A layer: from this place number upward, a place counts as the one so much lower.
    Layer { half: u32, below: Box<Estimate> },
}

impl Estimate {
    pub fn of(&self, from: u32, to: u32) -> u32 {
        match self {
            Estimate::Cells { columns, base } => {
                let rows = (from / columns).abs_diff(to / columns);
                let across = (from % columns).abs_diff(to % columns);
                let (small, large) = (rows.min(across), rows.max(across));
                7 * base * small + 5 * base * (large - small)
            }
            Estimate::Heights(heights) => heights[to as usize].saturating_sub(heights[from as usize]),
            Estimate::Layer { half, below } => {
                let down = |p: u32| if p >= *half { p - half } else { p };
                below.of(down(from), down(to))
            }
        }
    }
}

/// A ground, told in full: arc j goes from `tail[j]` to `head[j]`.
#[derive(Clone, Debug, PartialEq, Eq)]
pub struct Ground {
    pub n: u32,
    pub m: u32,
    pub tail: Vec<u32>,
    pub head: Vec<u32>,
    pub least: Vec<u32>,
    pub estimate: Estimate,
    pub made: Made,
}

/// What a ground was made from, for programs that make the same one in another way.
#[derive(Clone, Debug, PartialEq, Eq)]
pub enum Made {
    Grid { rows: u32, columns: u32, base: u32 },
    Roads,
    Pickup { below: Box<Ground>, at: u32 },
}

/// Row and column steps of the eight directions.
const STEPS: [(i32, i32); 8] = [(-1, 0), (-1, 1), (0, 1), (1, 1), (1, 0), (1, -1), (0, -1), (-1, -1)];

impl Ground {
    pub fn grid(rows: u32, columns: u32, base: u32) -> Ground {
        assert!((1..=128).contains(&rows) && (1..=128).contains(&columns) && (1..=1_000).contains(&base));
        let (mut tail, mut head, mut least) = (Vec::new(), Vec::new(), Vec::new());
        for row in 0..rows {
            for column in 0..columns {
                let place = row * columns + column;
                for (d, (down, right)) in STEPS.iter().enumerate() {
                    let (r, c) = (row as i32 + down, column as i32 + right);
                    let on = (0..rows as i32).contains(&r) && (0..columns as i32).contains(&c);
                    tail.push(place);
                    head.push(if on { r as u32 * columns + c as u32 } else { place });
                    least.push(if d % 2 == 0 { 5 * base } else { 7 * base });
                }
            }
        }
        let (n, m) = (rows * columns, 8 * rows * columns);
        Ground { n, m, tail, head, least, estimate: Estimate::Cells { columns, base }, made: Made::Grid { rows, columns, base } }
    }

    /// Roads over arcs (tail, head, least cost) and heights that Load would take.
    pub fn roads(n: u32, arcs: &[(u32, u32, u32)], heights: &[u32]) -> Ground {
        Ground {
            n,
            m: arcs.len() as u32,
            tail: arcs.iter().map(|a| a.0).collect(),
            head: arcs.iter().map(|a| a.1).collect(),
            least: arcs.iter().map(|a| a.2).collect(),
            estimate: Estimate::Heights(heights[..n as usize].to_vec()),
            made: Made::Roads,
        }
    }

    pub fn pickup(below: &Ground, at: u32) -> Ground {
        let made = Made::Pickup { below: Box::new(below.clone()), at };
        let estimate = Estimate::Layer { half: below.n, below: Box::new(below.estimate.clone()) };
        if 2 * below.n > 16_384 || 2 * below.m + 1 > 131_072 {
            return Ground { n: 0, m: 0, tail: vec![], head: vec![], least: vec![], estimate, made };
        }
        let twice = |ends: &[u32], by: u32| ends.iter().copied().chain(ends.iter().map(|e| e + by)).collect::<Vec<u32>>();
        let mut tail = twice(&below.tail, below.n);
        let mut head = twice(&below.head, below.n);
        let mut least = twice(&below.least, 0);
        if at < below.n {
            tail.push(at);
            head.push(below.n + at);
            least.push(1);
        }
        Ground { n: 2 * below.n, m: tail.len() as u32, tail, head, least, estimate, made }
    }

    /// Whether it keeps all that is asked of a ground.
    pub fn lawful(&self) -> bool {
        let m = self.m as usize;
        let arcs = (0..m).all(|j| self.tail[j] < self.n && self.head[j] < self.n && (1..=10_000).contains(&self.least[j]));
        let e = |a, s| self.estimate.of(a, s);
        self.n <= 16_384
            && m <= 131_072
            && (self.tail.len(), self.head.len(), self.least.len()) == (m, m, m)
            && arcs
            && (0..self.n).all(|a| {
                e(a, a) == 0
                    && (0..self.n).all(|s| e(a, s) <= 163_830_000)
                    && (0..m).all(|j| e(a, self.head[j]) <= e(a, self.tail[j]) + self.least[j])
            })
    }
}

/// How many entries the tables have that a call is handed: one a place, one an arc, one a place.
#[derive(Clone, Copy, Debug, PartialEq, Eq)]
pub struct Tables {
    pub places: usize,
    pub costs: usize,
    pub queue: usize,
}

#[derive(Clone, Debug, PartialEq, Eq)]
pub enum Ask {
    Begin { here: u32, landing: u32, slack: u32 },
    Set { arc: u32, cost: u32 },
    Move { place: u32 },
    Stretch { slack: u32 },
    Search { turns: u16 },
    /// The route into a list of so many entries.
    Route { list: usize },
    Sum { arcs: Vec<u32> },
}

/// A call: which of the grounds at hand it is given, the tables it is given, and what is asked.
#[derive(Clone, Debug, PartialEq, Eq)]
pub struct Call {
    pub ground: usize,
    pub tables: Tables,
    pub ask: Ask,
}

impl Call {
    /// Whether the ground is given with it.
    fn given_ground(&self) -> bool {
        matches!(self.ask, Ask::Set { .. } | Ask::Search { .. } | Ask::Route { .. })
    }

    /// Whether a table it is handed is too short for n places and m arcs. Move and Stretch are handed none, Sum the costs alone, and
    /// only Begin and Search the queue.
    pub fn short(&self, n: u32, m: u32) -> bool {
        let places = self.tables.places < n as usize;
        let costs = self.tables.costs < m as usize;
        let queue = self.tables.queue < n as usize;
        match self.ask {
            Ask::Move { .. } | Ask::Stretch { .. } => false,
            Ask::Sum { .. } => costs,
            Ask::Set { .. } | Ask::Route { .. } => places || costs,
            Ask::Begin { .. } | Ask::Search { .. } => places || costs || queue,
        }
    }
}

#[derive(Clone, Debug, PartialEq, Eq)]
pub enum Answer {
    Done,
    Settled { turns: u32, count: u32 },
    Cut { turns: u32, count: u32 },
    Route { arcs: Vec<u32>, sum: u32 },
    Sum(u32),
    Refused(u32),
}

#[derive(Clone, Copy, Debug, PartialEq, Eq)]
pub enum Phase {
    Changed,
    UnderWay,
    Settled,
}

#[derive(Clone, Debug, PartialEq, Eq)]
pub struct State {
    pub cost: Vec<u32>,
    pub here: u32,
    pub landing: u32,
    pub slack: u32,
    pub g: Vec<u32>,
    pub closed: Vec<bool>,
    pub count: u32,
    pub phase: Phase,
}

type Key = (u64, u64);

impl State {
    fn offer(&self, ground: &Ground, j: usize) -> u32 {
        self.cost[j].saturating_add(self.g[ground.head[j] as usize])
    }

    /// The rhs of every place, by one look at every arc.
    pub fn rhs(&self, ground: &Ground) -> Vec<u32> {
        let mut rhs = vec![FAR; ground.n as usize];
        for j in 0..ground.m as usize {
            let p = ground.tail[j] as usize;
            rhs[p] = rhs[p].min(self.offer(ground, j));
        }
        rhs[self.landing as usize] = 0;
        rhs
    }

    fn key(&self, ground: &Ground, rhs: &[u32], p: u32) -> Key {
        let (g, r) = (self.g[p as usize] as u64, rhs[p as usize] as u64);
        let estimate = ground.estimate.of(self.here, p) as u64;
        if g > r {
            (16 * r + self.slack as u64 * estimate, r)
        } else {
            (16 * g + 16 * estimate, g)
        }
    }

    fn open(&self, rhs: &[u32]) -> Vec<u32> {
        (0..rhs.len()).filter(|&p| self.g[p] != rhs[p] && !self.closed[p]).map(|p| p as u32).collect()
    }

    /// Whether a search is done.
    fn ended(&self, ground: &Ground, rhs: &[u32], open: &[u32]) -> bool {
        let h = self.here as usize;
        if open.is_empty() {
            return true;
        }
        if self.g[h] != rhs[h] || self.g[h] == FAR {
            return false;
        }
        let last = self.key(ground, rhs, self.here);
        open.iter().all(|&p| self.key(ground, rhs, p) >= last)
    }

    /// The open place that has the turn: places are in rising number, and a later one has to be smaller.
    fn chosen(&self, ground: &Ground, rhs: &[u32], open: &[u32]) -> u32 {
        let mut best = open[0];
        let mut least = self.key(ground, rhs, best);
        for &p in &open[1..] {
            let key = self.key(ground, rhs, p);
            if key < least {
                (best, least) = (p, key);
            }
        }
        best
    }

    fn turn(&mut self, rhs: &[u32], p: u32) {
        let p = p as usize;
        if self.g[p] > rhs[p] {
            self.g[p] = rhs[p];
            self.closed[p] = true;
        } else {
            self.g[p] = FAR;
        }
        self.count += 1;
    }

    fn search(&mut self, ground: &Ground, turns: u16) -> Answer {
        if self.phase == Phase::Changed {
            self.closed.fill(false);
            self.count = 0;
        }
        let mut made = 0;
        let settled = loop {
            let rhs = self.rhs(ground);
            let open = self.open(&rhs);
            if self.ended(ground, &rhs, &open) {
                break true;
            }
            if made == turns as u32 {
                break false;
            }
            let p = self.chosen(ground, &rhs, &open);
            self.turn(&rhs, p);
            made += 1;
        };
        self.phase = if settled { Phase::Settled } else { Phase::UnderWay };
        if settled { Answer::Settled { turns: made, count: self.count } } else { Answer::Cut { turns: made, count: self.count } }
    }

    fn sum(&self, arcs: &[u32]) -> u32 {
        arcs.iter().fold(0, |sum: u32, &j| sum.saturating_add(self.cost[j as usize]))
    }

    /// The arcs from here to the landing by the smallest offers.
    fn route(&self, ground: &Ground) -> Vec<u32> {
        let mut arcs = Vec::new();
        let mut p = self.here;
        while p != self.landing {
            let mut best: Option<usize> = None;
            for j in 0..ground.m as usize {
                if ground.tail[j] == p && best.is_none_or(|b| self.offer(ground, j) < self.offer(ground, b)) {
                    best = Some(j);
                }
            }
            let j = best.expect("a settled route ends at the landing");
            arcs.push(j as u32);
            p = ground.head[j];
            assert!(arcs.len() <= ground.n as usize, "a settled route passes no place twice");
        }
        arcs
    }
}

/// A plan: nothing until a Begin is accepted, and then a state, with the sizes of the ground that Begin was given.
#[derive(Clone, Debug, Default, PartialEq, Eq)]
pub struct Plan {
    pub begun: Option<(u32, u32, State)>,
}

impl Plan {
    pub fn call(&mut self, grounds: &[Ground], call: &Call) -> Answer {
        let ground = &grounds[call.ground];
        if let Ask::Begin { here, landing, slack } = call.ask {
            return self.begin(ground, call, here, landing, slack);
        }
        let Some((n, m, state)) = &mut self.begun else {
            return Answer::Refused(1);
        };
        let (n, m) = (*n, *m);
        if call.given_ground() && (ground.n, ground.m) != (n, m) {
            return Answer::Refused(2);
        }
        if matches!(call.ask, Ask::Move { place } if place >= n) {
            return Answer::Refused(3);
        }
        if matches!(call.ask, Ask::Stretch { slack } if !(16..=160).contains(&slack)) {
            return Answer::Refused(4);
        }
        if call.short(n, m) {
            return Answer::Refused(5);
        }
        match &call.ask {
            Ask::Begin { .. } => unreachable!(),
            Ask::Set { arc, .. } if *arc >= m => Answer::Refused(6),
            Ask::Set { arc, cost } => {
                let j = *arc as usize;
                if *cost != 0 && (*cost < ground.least[j] || *cost > 10_000) {
                    return Answer::Refused(7);
                }
                state.cost[j] = if *cost == 0 { FAR } else { *cost };
                state.phase = Phase::Changed;
                Answer::Done
            }
            Ask::Move { place } => {
                state.here = *place;
                state.phase = Phase::Changed;
                Answer::Done
            }
            Ask::Stretch { slack } => {
                state.slack = *slack;
                state.phase = Phase::Changed;
                Answer::Done
            }
            Ask::Search { turns } => state.search(ground, *turns),
            Ask::Route { .. } if state.phase != Phase::Settled => Answer::Refused(8),
            Ask::Route { .. } if state.g[state.here as usize] == FAR => Answer::Refused(9),
            Ask::Route { list } => {
                let arcs = state.route(ground);
                if arcs.len() > *list { Answer::Refused(10) } else { Answer::Route { sum: state.sum(&arcs), arcs } }
            }
            Ask::Sum { arcs } if arcs.iter().any(|&j| j >= m) => Answer::Refused(6),
            Ask::Sum { arcs } => Answer::Sum(state.sum(arcs)),
        }
    }

    fn begin(&mut self, ground: &Ground, call: &Call, here: u32, landing: u32, slack: u32) -> Answer {
        if here >= ground.n || landing >= ground.n {
            return Answer::Refused(3);
        }
        if !(16..=160).contains(&slack) {
            return Answer::Refused(4);
        }
        if call.short(ground.n, ground.m) {
            return Answer::Refused(5);
        }
        let n = ground.n as usize;
        let state = State {
            cost: ground.least.clone(),
            here,
            landing,
            slack,
            g: vec![FAR; n],
            closed: vec![false; n],
            count: 0,
            phase: Phase::Changed,
        };
        self.begun = Some((ground.n, ground.m, state));
        Answer::Done
    }
}
