// The search for prices in plain Rust, played over the cycles of a trace that the script made plain.
#[derive(Clone, Copy, PartialEq, Debug)]
pub enum Kind {
    Leaf,
    Max,
    Min,
    Sum,
    Barrier,
}
#[derive(Clone, Copy, Debug)]
pub struct Node {
    pub kind: Kind,
    pub parent: u32,
    pub first: u32,
    pub num: u32,
    pub span: u32,
    pub k: u32,
    pub linear: bool,
    pub worth: u64,
}
// worth: of all nodes (leaf), threshold (barrier)
pub const NONE: u32 = u32::MAX;
#[derive(Clone, Copy, Debug)]
pub struct Span {
    pub from: u32,
    pub to: u32,
    pub first: u32,
    pub last: u32,
}
#[derive(Clone, Copy, Debug)]
pub struct Place {
    pub cost: u64,
    pub part: u32,
    pub capacity: u32,
}
#[derive(Clone, Copy, Debug)]
pub struct Use {
    pub node: u32,
    pub part: u32,
    pub nodes: u32,
}
#[derive(Clone, Copy, Debug, Default)]
pub struct Tally {
    pub gain: u64,
    pub cost: u64,
    pub best: u32,
    pub chosen: bool,
}

pub struct Market {
    pub window: usize,
    pub parts: usize,
    pub free: Vec<u32>, // by part and slot
    pub spans: Vec<Span>,
    pub places: Vec<Place>, // of the spans, by cost
    pub nodes: Vec<Node>,
    pub starts: Vec<usize>, // by job, one more at the end
    pub sizes: Vec<u64>,
    pub tallies: Vec<Tally>,
    pub gains: Vec<u64>, // by node
    pub prices: Vec<u64>,
    pub sums: Vec<u64>,
    pub usage: Vec<i64>,  // differences, by part and slot, one more
    pub heads: Vec<Head>, // scratch of place
    pub salt: u64,        // above 0: one leaf in sixteen is passed over
}
#[derive(Clone, Copy, Debug, Default)]
pub struct Head {
    pub worth: u64,
    pub cost: u64,
    pub key: u64,
    pub mark: usize,
}

#[derive(Default, Clone)]
pub struct Plan {
    pub uses: Vec<Use>,
    pub spans: Vec<(usize, usize)>,
    pub worths: Vec<u64>,
    pub total: u64,
}
impl Plan {
    pub fn clear(&mut self, n: usize) {
        self.uses.clear();
        self.spans.clear();
        self.spans.resize(n, (0, 0));
        self.worths.clear();
        self.worths.resize(n, 0);
        self.total = 0;
    }
    pub fn of(&self, j: usize) -> &[Use] {
        &self.uses[self.spans[j].0..self.spans[j].1]
    }
}
pub struct Pcg(u64);
impl Pcg {
    pub fn new() -> Self {
        Pcg(0x853c49e6748fea9b)
    }
    pub fn word(&mut self) -> u32 {
        let old = self.0;
        self.0 = old
            .wrapping_mul(6364136223846793005)
            .wrapping_add(1442695040888963407);
        let x = (((old >> 18) ^ old) >> 27) as u32;
        x.rotate_right((old >> 59) as u32)
    }
    // The binary logarithm of one over a number by chance between 0 and 1, in parts of 1024, about.
    pub fn logarithm(&mut self) -> u64 {
        let word = self.word().max(1);
        let zeros = word.leading_zeros();
        (zeros as u64 + 1) * 1024 - ((word << zeros) >> 21 & 1023) as u64
    }
    pub fn below(&mut self, n: usize) -> usize {
        if n == 0 {
            0
        } else {
            ((self.word() as u64 * n as u64) >> 32) as usize
        }
    }
}

fn start_of(kind: Kind) -> Tally {
    match kind {
        Kind::Min => Tally {
            gain: u64::MAX,
            cost: 0,
            best: NONE,
            chosen: false,
        },
        Kind::Max | Kind::Sum => Tally {
            gain: 0,
            cost: u64::MAX,
            best: NONE,
            chosen: false,
        },
        _ => Tally {
            gain: 0,
            cost: 0,
            best: NONE,
            chosen: false,
        },
    }
}

impl Market {
    pub fn gain_of(&self, j: usize) -> u64 {
        self.gains[self.starts[j + 1] - 1]
    }
    pub fn jobs(&self) -> usize {
        self.starts.len() - 1
    }
    pub fn prepare(&mut self) {
        self.tallies = self.nodes.iter().map(|n| start_of(n.kind)).collect();
        self.gains = vec![0; self.nodes.len()];
        self.prices = vec![0; self.parts * self.window];
        self.sums = vec![0; self.parts * (self.window + 1)];
        self.usage = vec![0; self.parts * (self.window + 1)];
        let most = (0..self.jobs())
            .map(|j| self.starts[j + 1] - self.starts[j])
            .max()
            .unwrap_or(0);
        self.heads = vec![Head::default(); most];
    }
    pub fn price_places(&mut self) {
        let w = self.window;
        for p in 0..self.parts {
            let mut s = 0u64;
            for t in 0..w {
                self.sums[p * (w + 1) + t] = s;
                s = s.saturating_add(self.prices[p * w + t]);
            }
            self.sums[p * (w + 1) + w] = s;
        }
        for s in &self.spans {
            let places = &mut self.places[s.first as usize..s.last as usize];
            for x in places.iter_mut() {
                let o = x.part as usize * (w + 1);
                x.cost = self.sums[o + s.to as usize] - self.sums[o + s.from as usize];
            }
            if places.len() > 1 {
                places.sort_unstable_by_key(|x| (x.cost, x.part));
            }
        }
    }
    // gain and least cost of a leaf
    fn leaf_value(&self, n: &Node) -> (u64, u64) {
        let s = &self.spans[n.span as usize];
        let places = &self.places[s.first as usize..s.last as usize];
        let mut left = n.k;
        if n.linear {
            let each = n.worth / n.k as u64;
            let mut gain = 0u64;
            for p in places {
                if left == 0 || p.cost >= each {
                    break;
                }
                let c = left.min(p.capacity);
                gain += c as u64 * (each - p.cost);
                left -= c;
            }
            return (gain, places.first().map_or(0, |p| p.cost));
        }
        let mut spent = 0u64;
        for p in places {
            let c = left.min(p.capacity);
            spent = spent.saturating_add((c as u64).saturating_mul(p.cost));
            left -= c;
            if left == 0 {
                break;
            }
        }
        if left > 0 {
            return (0, spent);
        }
        (n.worth.saturating_sub(spent), spent)
    }
    fn use_leaf(&mut self, n: Node) {
        let s = self.spans[n.span as usize];
        let each = if n.linear {
            n.worth / n.k as u64
        } else {
            u64::MAX
        };
        let mut left = n.k;
        for p in &self.places[s.first as usize..s.last as usize] {
            if left == 0 || p.cost >= each {
                break;
            }
            let c = left.min(p.capacity);
            left -= c;
            let o = p.part as usize * (self.window + 1);
            self.usage[o + s.from as usize] += c as i64;
            self.usage[o + s.to as usize] -= c as i64;
        }
    }
    // gain of a job, and its usage
    fn turn_job(&mut self, j: usize) -> u64 {
        let (a, b) = (self.starts[j], self.starts[j + 1]);
        for i in a..b {
            let n = self.nodes[i];
            let t = self.tallies[i];
            let (gain, cost) = match n.kind {
                Kind::Leaf => self.leaf_value(&n),
                Kind::Max | Kind::Sum => (t.gain, t.cost),
                Kind::Min => (t.gain.saturating_sub(t.cost), t.cost),
                Kind::Barrier => (t.gain.min(n.worth.saturating_sub(t.cost)), t.cost),
            };
            let st = start_of(n.kind);
            self.tallies[i].gain = st.gain;
            self.tallies[i].cost = st.cost;
            self.gains[i] = gain;
            if n.parent != NONE {
                let k = self.nodes[n.parent as usize].kind;
                let t = &mut self.tallies[n.parent as usize];
                match k {
                    Kind::Max => {
                        if gain > t.gain {
                            t.gain = gain;
                            t.best = i as u32;
                        }
                        t.cost = t.cost.min(cost);
                    }
                    Kind::Sum => {
                        t.gain = t.gain.saturating_add(gain);
                        t.cost = t.cost.min(cost);
                    }
                    Kind::Min => {
                        t.gain = t.gain.min(gain.saturating_add(cost));
                        t.cost = t.cost.saturating_add(cost);
                    }
                    _ => {
                        t.gain = gain;
                        t.cost = cost;
                    }
                }
            }
        }
        let gain = self.gains[b - 1];
        if gain > 0 {
            for i in (a..b).rev() {
                let n = self.nodes[i];
                let chosen = if n.parent == NONE {
                    true
                } else {
                    let p = n.parent as usize;
                    self.tallies[p].chosen
                        && (self.nodes[p].kind != Kind::Max || self.tallies[p].best == i as u32)
                        && (self.nodes[p].kind == Kind::Min
                            || self.nodes[p].kind == Kind::Barrier
                            || self.gains[i] > 0)
                };
                self.tallies[i].chosen = chosen;
                if chosen && n.kind == Kind::Leaf {
                    self.use_leaf(n);
                }
            }
        }
        gain
    }
    pub fn turn(&mut self) -> u128 {
        self.price_places();
        self.usage.iter_mut().for_each(|x| *x = 0);
        let mut total: u128 = 0;
        for j in 0..self.jobs() {
            total += self.turn_job(j) as u128;
        }
        for (p, f) in self.prices.iter().zip(&self.free) {
            total += *p as u128 * *f as u128;
        }
        total
    }
    fn least_left(&self, left: &[u32], part: u32, s: &Span, most: u32) -> u32 {
        let o = part as usize * self.window;
        let mut n = most;
        for x in &left[o + s.from as usize..o + s.to as usize] {
            if *x < n {
                n = *x;
                if n == 0 {
                    return 0;
                }
            }
        }
        n
    }
    fn fill_leaf(
        &self,
        i: usize,
        n: &Node,
        priced: bool,
        left: &[u32],
        uses: &mut Vec<Use>,
        least: u64,
    ) -> (u64, u64) {
        let s = &self.spans[n.span as usize];
        let mark = uses.len();
        let each = if n.linear {
            n.worth / n.k as u64
        } else {
            u64::MAX
        };
        let (mut need, mut cost) = (n.k, 0u64);
        for p in &self.places[s.first as usize..s.last as usize] {
            if need == 0 || priced && p.cost >= each {
                break;
            }
            let c = self.least_left(left, p.part, s, p.capacity.min(need));
            if c > 0 {
                need -= c;
                cost = cost.saturating_add((c as u64).saturating_mul(p.cost));
                uses.push(Use {
                    node: i as u32,
                    part: p.part,
                    nodes: c,
                });
                if priced && !n.linear && n.worth.saturating_sub(cost) <= least {
                    break;
                }
            }
        }
        if need == n.k || need > 0 && !n.linear {
            uses.truncate(mark);
            return (0, 0);
        }
        (
            if n.linear {
                each * (n.k - need) as u64
            } else {
                n.worth
            },
            cost,
        )
    }
    fn take(&self, uses: &[Use], left: &mut [u32]) {
        for u in uses {
            let s = &self.spans[self.nodes[u.node as usize].span as usize];
            let o = u.part as usize * self.window;
            for x in &mut left[o + s.from as usize..o + s.to as usize] {
                *x -= u.nodes;
            }
        }
    }
    fn give(&self, uses: &[Use], left: &mut [u32]) {
        for u in uses {
            let s = &self.spans[self.nodes[u.node as usize].span as usize];
            let o = u.part as usize * self.window;
            for x in &mut left[o + s.from as usize..o + s.to as usize] {
                *x += u.nodes;
            }
        }
    }
    // places a job beside what is taken: its worth
    pub fn place(&mut self, j: usize, priced: bool, left: &mut [u32], uses: &mut Vec<Use>) -> u64 {
        let (a, b) = (self.starts[j], self.starts[j + 1]);
        let root = uses.len();
        let mut heads = std::mem::take(&mut self.heads);
        for i in a..b {
            let k = self.nodes[i].kind;
            heads[i - a] = Head {
                worth: if k == Kind::Min { u64::MAX } else { 0 },
                cost: 0,
                key: 0,
                mark: 0,
            };
        }
        let mut result = 0;
        for i in a..b {
            let n = self.nodes[i];
            let under = if n.parent == NONE {
                Kind::Sum
            } else {
                self.nodes[n.parent as usize].kind
            };
            let kept = under != Kind::Max;
            let mark = if n.kind == Kind::Leaf {
                uses.len()
            } else {
                heads[n.first as usize - a].mark
            };
            heads[i - a].mark = mark;
            let h = heads[i - a];
            let (mut worth, mut cost) = (h.worth, h.cost);
            match n.kind {
                Kind::Leaf => {
                    let least = if under == Kind::Max {
                        heads[n.parent as usize - a].key
                    } else {
                        0
                    };
                    let most = if priced {
                        self.gains[i]
                    } else {
                        n.worth.saturating_mul(1024)
                    };
                    let passed = self.salt > 0
                        && (i as u64 ^ self.salt).wrapping_mul(0x9E3779B97F4A7C15) >> 60 == 0;
                    if passed || most <= least && (under == Kind::Max || under == Kind::Sum) {
                        worth = 0;
                        cost = 0;
                    } else {
                        (worth, cost) = self.fill_leaf(
                            i,
                            &n,
                            priced,
                            left,
                            uses,
                            if under == Kind::Max || under == Kind::Sum {
                                least
                            } else {
                                0
                            },
                        );
                    }
                    if priced && worth <= cost && under == Kind::Sum {
                        uses.truncate(mark);
                        worth = 0;
                        cost = 0;
                    }
                    if kept {
                        self.take(&uses[mark..], left);
                    }
                }
                Kind::Max => {
                    if kept {
                        self.take(&uses[mark..], left);
                    }
                }
                Kind::Sum => {
                    if !kept {
                        self.give(&uses[mark..], left);
                    }
                }
                Kind::Min => {
                    if worth == 0 || !kept {
                        self.give(&uses[mark..], left);
                    }
                    if worth == 0 {
                        uses.truncate(mark);
                        cost = 0;
                    }
                }
                Kind::Barrier => {
                    if worth < n.worth || !kept {
                        self.give(&uses[mark..], left);
                    }
                    if worth < n.worth {
                        uses.truncate(mark);
                        worth = 0;
                        cost = 0;
                    } else {
                        worth = n.worth;
                    }
                }
            }
            if n.parent == NONE {
                result = worth;
                if priced && worth <= cost {
                    self.give(&uses[root..], left);
                    uses.truncate(root);
                    result = 0;
                }
                break;
            }
            let p = n.parent as usize - a;
            match under {
                Kind::Max => {
                    let key = if priced {
                        worth.saturating_sub(cost)
                    } else if worth == 0 {
                        0
                    } else {
                        worth.saturating_mul(1024).saturating_sub(cost).max(1)
                    };
                    if key > heads[p].key {
                        let from = heads[n.parent as usize - a].key;
                        let pm = heads[self.nodes[n.parent as usize].first as usize - a].mark;
                        let _ = from;
                        uses.drain(pm..mark);
                        heads[p].key = key;
                        heads[p].worth = worth;
                        heads[p].cost = cost;
                    } else {
                        uses.truncate(mark);
                    }
                }
                Kind::Sum => {
                    heads[p].worth = heads[p].worth.saturating_add(worth);
                    heads[p].cost = heads[p].cost.saturating_add(cost);
                }
                Kind::Min => {
                    heads[p].worth = heads[p].worth.min(worth);
                    heads[p].cost = heads[p].cost.saturating_add(cost);
                }
                _ => {
                    heads[p].worth = worth;
                    heads[p].cost = cost;
                }
            }
        }
        self.heads = heads;
        result
    }
    pub fn fill(&mut self, order: &[u32], priced: bool, left: &mut [u32], plan: &mut Plan) {
        for &j in order {
            let j = j as usize;
            if plan.worths[j] > 0 || priced && self.gains[self.starts[j + 1] - 1] == 0 {
                continue;
            }
            let mark = plan.uses.len();
            let w = self.place(j, priced, left, &mut plan.uses);
            if w > 0 {
                plan.worths[j] = w;
                plan.spans[j] = (mark, plan.uses.len());
                plan.total += w;
            } else {
                plan.uses.truncate(mark);
            }
        }
    }
}
pub const UNIT: u64 = 4096;
pub struct Found {
    pub bound: u128,
    pub plan: Plan,
    pub turns: usize,
    pub rounds: usize,
}

pub struct Options {
    pub turns: usize,
    pub rounds: usize,
}

pub fn search(m: &mut Market, o: &Options, known: u64) -> Found {
    let n = m.jobs();
    let cells = m.prices.len();
    let tops: Vec<u64> = {
        m.prices.iter_mut().for_each(|x| *x = 0);
        m.turn();
        (0..n).map(|j| m.gains[m.starts[j + 1] - 1]).collect()
    };
    let mut best_plan = Plan::default();
    best_plan.clear(n);
    let mut plan = Plan::default();
    let mut best_bound = u128::MAX;
    let mut best_prices = m.prices.clone();
    let mut theta: i128 = 1024;
    let mut stale = 0;
    let mut dir = vec![0i64; cells];
    let mut order: Vec<u32> = Vec::new();
    let mut ranks: Vec<(u64, u32)> = Vec::new();
    let mut left: Vec<u32> = Vec::new();
    let mut turns = 0;
    let mut since = 0;
    for turn in 0..o.turns {
        turns = turn + 1;
        let bound = m.turn();
        if bound < best_bound {
            if bound < best_bound - best_bound / 8192 {
                stale = 0;
            }
            if bound < best_bound - best_bound / 4096 {
                since = 0;
            }
            best_bound = bound;
            best_prices.clone_from(&m.prices);
        } else {
            stale += 1;
        }
        since += 1;
        if since > 400 {
            break;
        }
        if turn < 8 || turn < 64 && turn % 4 == 0 || turn % 16 == 0 {
            ranks.clear();
            let by_size = turn % 8 != 0;
            for j in 0..n {
                if tops[j] > 0 {
                    let g = m.gains[m.starts[j + 1] - 1];
                    ranks.push((
                        u64::MAX - if by_size { g / m.sizes[j] } else { g },
                        j as u32,
                    ));
                }
            }
            ranks.sort_unstable();
            order.clear();
            order.extend(ranks.iter().map(|r| r.1));
            left.clone_from(&m.free);
            plan.clear(n);
            m.fill(&order, true, &mut left, &mut plan);
            m.fill(&order, false, &mut left, &mut plan);
            if plan.total > best_plan.total {
                std::mem::swap(&mut plan, &mut best_plan);
            }
        }
        let value = best_plan.total.max(known * UNIT);
        if best_bound / UNIT as u128 <= value as u128 / UNIT as u128 {
            break;
        }
        if stale > 30 {
            stale = 0;
            theta = theta * 4 / 5;
            m.prices.clone_from(&best_prices);
            dir.iter_mut().for_each(|d| *d = 0);
            if theta < 8 {
                break;
            }
            continue;
        }
        let w = m.window;
        let mut norm: i128 = 0;
        for p in 0..m.parts {
            let mut u = 0i64;
            for t in 0..w {
                u += m.usage[p * (w + 1) + t];
                let i = p * w + t;
                let g = (u - m.free[i] as i64) * 16;
                let mut d = g + dir[i] * 7 / 10;
                if d < 0 && m.prices[i] == 0 {
                    d = 0;
                }
                dir[i] = d;
                norm += d as i128 * d as i128;
            }
        }
        if norm == 0 {
            break;
        }
        let gap = (bound as i128 - value as i128).max(UNIT as i128 / 2) * theta;
        let factor = gap * 16 * (1i128 << 22) / norm; // theta of 1024, 2^32 fixed
        let mut moved = false;
        for i in 0..cells {
            let x = m.prices[i] as i128 + (factor * dir[i] as i128 >> 32);
            let x = x.max(0).min(1 << 60) as u64;
            moved |= x != m.prices[i];
            m.prices[i] = x;
        }
        if !moved {
            for i in 0..cells {
                let x = m.prices[i] as i64 + dir[i].signum();
                m.prices[i] = x.max(0) as u64;
            }
        }
    }
    m.prices.clone_from(&best_prices);
    m.turn();
    if std::env::args().nth(1).as_deref() == Some("turns") {
        time_turns(m);
    }
    let value = best_plan.total.max(known * UNIT);
    let mut rounds = 0;
    if best_bound / UNIT as u128 > value as u128 / UNIT as u128 && o.rounds > 0 {
        let gap = (best_bound - value as u128) / (best_bound / 1024).max(1);
        rounds = repair(
            m,
            o.rounds * (gap as usize / 8).clamp(1, 4),
            &mut best_plan,
            (best_bound / UNIT as u128 * UNIT as u128) as u64,
            &tops,
        );
    }
    Found {
        bound: best_bound,
        plan: best_plan,
        turns,
        rounds,
    }
}

extern "C" {
    fn clock_gettime(clock: i32, time: &mut [i64; 2]) -> i32;
}

/// Nanoseconds of the processor that this thread has had.
fn thread_time() -> i64 {
    let mut time = [0; 2];
    // SAFETY: on 64-bit Linux a time is two such numbers, and 3 names the thread's clock.
    unsafe { clock_gettime(3, &mut time) };
    time[0] * 1_000_000_000 + time[1]
}

/// Prints the nanoseconds of a turn under the best prices.
fn time_turns(m: &mut Market) {
    let number = (40_000_000 / m.jobs().max(1)).max(1);
    let start = thread_time();
    for _ in 0..number {
        std::hint::black_box(m.turn());
    }
    println!("turn {} ns", (thread_time() - start) / number as i64);
}

fn touches(m: &Market, uses: &[Use], touched: &[bool]) -> bool {
    uses.iter().any(|u| {
        let s = &m.spans[m.nodes[u.node as usize].span as usize];
        let o = u.part as usize * m.window;
        touched[o + s.from as usize..o + s.to as usize]
            .iter()
            .any(|x| *x)
    })
}

fn repair(m: &mut Market, rounds: usize, best: &mut Plan, limit: u64, tops: &[u64]) -> usize {
    let n = m.jobs();
    let useful: Vec<usize> = (0..n).filter(|&j| tops[j] > 0).collect();
    if useful.is_empty() {
        return 0;
    }
    let mut rng = Pcg::new();
    let mut plan = best.clone();
    let mut left = m.free.clone();
    m.take(&plan.uses, &mut left);
    let mut touched = vec![false; m.prices.len()];
    let mut free = Vec::new();
    let mut want: Vec<Use> = Vec::new();
    let mut out: Vec<usize> = Vec::new();
    let mut old: Vec<(usize, (usize, usize), u64)> = Vec::new();
    let mut made = 0;
    for round in 0..rounds {
        made = round + 1;
        if plan.total >= limit {
            break;
        }
        if plan.uses.len() > 20000 + 4 * n {
            let mut q = Vec::new();
            for j in 0..n {
                let at = q.len();
                q.extend_from_slice(plan.of(j));
                plan.spans[j] = (at, q.len());
            }
            plan.uses = q;
        }
        let mut j = useful[rng.below(useful.len())];
        for _ in 0..4 {
            if plan.worths[j] < tops[j] {
                break;
            }
            j = useful[rng.below(useful.len())];
        }
        want.clear();
        if plan.worths[j] > 0 && rng.below(2) == 0 {
            want.extend_from_slice(plan.of(j));
        } else {
            free.clone_from(&m.free);
            let k = rng.below(3);
            if k > 0 {
                for &i in &useful {
                    if i != j && plan.worths[i] > 0 && rng.below(3) > 0 {
                        m.take(plan.of(i), &mut free);
                    }
                }
            }
            let priced = rng.below(2) == 0;
            m.place(j, priced, &mut free, &mut want);
        }
        if want.is_empty() {
            continue;
        }
        for u in &want {
            let s = &m.spans[m.nodes[u.node as usize].span as usize];
            let o = u.part as usize * m.window;
            for t in s.from..s.to {
                touched[o + t as usize] = true;
            }
        }
        out.clear();
        out.push(j);
        let most = 4 + rng.below(16);
        let from = rng.below(useful.len());
        for d in 0..useful.len() {
            let i = useful[(from + d) % useful.len()];
            if i == j || plan.worths[i] == 0 {
                continue;
            }
            if touches(m, plan.of(i), &touched) {
                out.push(i);
                if out.len() >= most {
                    break;
                }
            }
        }
        for u in &want {
            let s = &m.spans[m.nodes[u.node as usize].span as usize];
            let o = u.part as usize * m.window;
            for t in s.from..s.to {
                touched[o + t as usize] = false;
            }
        }
        for _ in 0..12 {
            let mut i = useful[rng.below(useful.len())];
            for _ in 0..2 {
                let k = useful[rng.below(useful.len())];
                if plan.worths[i] > 0 || plan.worths[k] == 0 && m.gain_of(i) < m.gain_of(k) {
                    i = k;
                }
            }
            if plan.worths[i] == 0 && !out.contains(&i) {
                out.push(i);
            }
        }
        let before: u64 = out.iter().map(|&i| plan.worths[i]).sum();
        let total = plan.total;
        let mark = plan.uses.len();
        old.clear();
        for &i in &out {
            old.push((i, plan.spans[i], plan.worths[i]));
            m.give(&plan.uses[plan.spans[i].0..plan.spans[i].1], &mut left);
            plan.worths[i] = 0;
            plan.spans[i] = (0, 0);
        }
        plan.total -= before;
        let order: Vec<u32> = {
            let mut v: Vec<usize> = out.clone();
            let by = std::cmp::Reverse::<u64>;
            match rng.below(8) {
                0 => {
                    for x in (1..v.len()).rev() {
                        let y = rng.below(x + 1);
                        v.swap(x, y);
                    }
                }
                1 => v[1..].sort_by_key(|&i| by(tops[i])),
                2 => v.sort_by_key(|&i| by(tops[i] / m.sizes[i])),
                3 => {
                    let r = rng.below(v.len());
                    v.swap(0, r);
                    v[1..].sort_by_key(|&i| by(tops[i] / m.sizes[i]));
                }
                4 => v.sort_by_key(|&i| by(m.gain_of(i) / m.sizes[i])),
                5 => v.sort_by_key(|&i| by(m.gain_of(i))),
                6 => v[1..].sort_by_key(|&i| by(m.gain_of(i) / m.sizes[i])),
                _ => v[1..].sort_by_key(|&i| by(m.sizes[i])),
            }
            v.into_iter().map(|x| x as u32).collect()
        };
        let priced = rng.below(4) > 0;
        m.salt = (rng.word() as u64) << 8 | 1;
        m.fill(&order, priced, &mut left, &mut plan);
        if priced {
            m.fill(&order, false, &mut left, &mut plan);
        }
        m.salt = 0;
        let remaining = (rounds - round) as u64;
        let slack = total / 6000 * remaining / rounds as u64 * remaining / rounds as u64
            * rng.logarithm()
            / 1024;
        if plan.total + slack >= total {
            if plan.total > best.total {
                *best = plan.clone();
            }
        } else {
            for &i in &out {
                m.give(&plan.uses[plan.spans[i].0..plan.spans[i].1], &mut left);
            }
            for &(i, s, w) in &old {
                plan.spans[i] = s;
                plan.worths[i] = w;
            }
            plan.uses.truncate(mark);
            for &i in &out {
                m.take(&plan.uses[plan.spans[i].0..plan.spans[i].1], &mut left);
            }
            plan.total = total;
        }
    }
    made
}

#[derive(Clone, Copy)]
struct L {
    set: i32,
    k: u32,
    start: u32,
    dur: u32,
    v: u64,
}
enum J {
    Ask {
        k: u32,
        value: u64,
        deadline: u32,
        decay: bool,
        opts: Vec<(i32, u32)>,
    },
    Strl(Vec<L>),
}
struct Job {
    at: u32,
    j: J,
}
fn leaves(job: &Job, now: u32, w: u32) -> Vec<L> {
    match &job.j {
        J::Ask {
            k,
            value,
            deadline,
            decay,
            opts,
        } => {
            let mut v = Vec::new();
            for s in now.max(job.at)..now + w {
                for &(set, dur) in opts {
                    let end = s + dur - job.at;
                    if end <= *deadline {
                        let x = if *decay {
                            value * (deadline - end + 1) as u64 / *deadline as u64
                        } else {
                            *value
                        };
                        if x > 0 {
                            v.push(L {
                                set,
                                k: *k,
                                start: s,
                                dur,
                                v: x,
                            });
                        }
                    }
                }
            }
            v
        }
        J::Strl(ls) => ls
            .iter()
            .map(|l| L {
                start: l.start + job.at,
                ..*l
            })
            .filter(|l| l.start >= now && l.start < now + w)
            .collect(),
    }
}
fn main() {
    let args: Vec<String> = std::env::args().collect();
    let verbose = args.len() > 1;
    let mut text = String::new();
    std::io::Read::read_to_string(&mut std::io::stdin(), &mut text).unwrap();
    let mut lines = text.lines();
    let h: Vec<u32> = lines
        .next()
        .unwrap()
        .split(' ')
        .skip(1)
        .map(|x| x.parse().unwrap())
        .collect();
    let (nodes, w, until) = (h[0], h[1], h[2]);
    let racks = h[3] as usize;
    let per = nodes / racks as u32;
    let mut jobs = Vec::new();
    for l in lines {
        let f: Vec<&str> = l.split(' ').collect();
        let set = |x: &str| -> i32 {
            if x == "*" {
                -1
            } else if x == "G" {
                -2
            } else {
                x.parse().unwrap()
            }
        };
        let n = |x: &str| -> u32 { x.parse().unwrap() };
        let j = if f[0] == "A" {
            let mut opts = Vec::new();
            for o in 0..n(f[6]) as usize {
                opts.push((set(f[7 + 2 * o]), n(f[8 + 2 * o])));
            }
            J::Ask {
                k: n(f[2]),
                value: n(f[3]) as u64,
                deadline: n(f[4]),
                decay: f[5] == "1",
                opts,
            }
        } else {
            let mut ls = Vec::new();
            for o in 0..n(f[2]) as usize {
                let b = 3 + 5 * o;
                ls.push(L {
                    set: set(f[b]),
                    k: n(f[b + 1]),
                    start: n(f[b + 2]),
                    dur: n(f[b + 3]),
                    v: n(f[b + 4]) as u64,
                });
            }
            J::Strl(ls)
        };
        jobs.push(Job { at: n(f[1]), j });
    }
    let mut running: Vec<(usize, u32, u32)> = Vec::new(); // part, count, end
    let mut done = vec![false; jobs.len()];
    let (mut sv, mut sb, mut st) = (0u64, 0u128, 0u128);
    let (mut worst, mut tt, mut tr) = (0f64, 0usize, 0usize);
    let t_all = std::time::Instant::now();
    for now in 0..until {
        running.retain(|r| r.2 > now);
        let mut free = vec![0u32; racks * w as usize];
        for p in 0..racks {
            for t in 0..w {
                free[p * w as usize + t as usize] = per
                    - running
                        .iter()
                        .filter(|r| r.0 == p && r.2 > now + t)
                        .map(|r| r.1)
                        .sum::<u32>();
            }
        }
        let mut m = Market {
            window: w as usize,
            parts: racks,
            free,
            spans: vec![],
            places: vec![],
            nodes: vec![],
            starts: vec![0],
            sizes: vec![],
            tallies: vec![],
            gains: vec![],
            prices: vec![],
            sums: vec![],
            usage: vec![],
            heads: vec![],
            salt: 0,
        };
        let mut classes = std::collections::HashMap::new();
        let mut ids = Vec::new();
        let mut all: Vec<Vec<L>> = Vec::new();
        let mut pairs = 0usize;
        for (id, job) in jobs.iter().enumerate() {
            if done[id] || job.at > now {
                continue;
            }
            let ls = leaves(job, now, w);
            if ls.is_empty() {
                continue;
            }
            let a = m.nodes.len();
            let mut size = u64::MAX;
            for l in &ls {
                let span = *classes.entry((l.set, l.start, l.dur)).or_insert_with(|| {
                    let from = l.start - now;
                    let to = (from + l.dur).min(w);
                    let first = m.places.len() as u32;
                    let r = match l.set {
                        -1 => 0..racks,
                        -2 => 0..racks / 2,
                        q => q as usize..q as usize + 1,
                    };
                    for p in r {
                        let c = m.free[p * w as usize + from as usize];
                        if c > 0 {
                            m.places.push(Place {
                                cost: 0,
                                part: p as u32,
                                capacity: c,
                            });
                        }
                    }
                    m.spans.push(Span {
                        from,
                        to,
                        first,
                        last: m.places.len() as u32,
                    });
                    m.spans.len() as u32 - 1
                });
                pairs += (m.spans[span as usize].last - m.spans[span as usize].first) as usize;
                let i = m.nodes.len() as u32;
                size = size.min(l.k as u64 * l.dur as u64);
                m.nodes.push(Node {
                    kind: Kind::Leaf,
                    parent: NONE,
                    first: i,
                    num: l.start,
                    span,
                    k: l.k,
                    linear: false,
                    worth: l.v * UNIT,
                });
            }
            if ls.len() > 1 {
                let i = m.nodes.len() as u32;
                for n in &mut m.nodes[a..] {
                    n.parent = i;
                }
                m.nodes.push(Node {
                    kind: Kind::Max,
                    parent: NONE,
                    first: a as u32,
                    num: 0,
                    span: 0,
                    k: 0,
                    linear: false,
                    worth: 0,
                });
            }
            m.starts.push(m.nodes.len());
            m.sizes.push(size.max(1));
            ids.push(id);
            all.push(ls);
        }
        m.prepare();
        let t0 = std::time::Instant::now();
        let size = m.nodes.len() + pairs + m.prices.len();
        let turns = (60_000_000 / size.max(1)).clamp(60, 1500);
        let rounds = (100_000_000 / m.nodes.len().max(1)).clamp(100, 10_000);
        let f = search(&mut m, &Options { turns, rounds }, 0);
        let dt = t0.elapsed().as_secs_f64();
        worst = worst.max(dt);
        tt += f.turns;
        tr += f.rounds;
        let (v, b) = ((f.plan.total / UNIT) as u64, f.bound / UNIT as u128);
        if verbose {
            eprintln!(
                "cycle {now}: jobs {} pairs {pairs} value {v} bound {b} turns {} rounds {} {:.3}s",
                ids.len(),
                f.turns,
                f.rounds,
                dt
            );
        }
        // check
        let mut left = m.free.iter().map(|x| *x as i64).collect::<Vec<_>>();
        for j in 0..m.jobs() {
            for u in f.plan.of(j) {
                let s = &m.spans[m.nodes[u.node as usize].span as usize];
                for t in s.from..s.to {
                    left[u.part as usize * w as usize + t as usize] -= u.nodes as i64;
                }
            }
        }
        assert!(left.iter().all(|x| *x >= 0));
        sv += v;
        sb += b;
        st += 1;
        for j in 0..m.jobs() {
            for u in f.plan.of(j) {
                let i = u.node as usize - m.starts[j];
                let l = &all[j][i];
                if l.start == now {
                    done[ids[j]] = true;
                    running.push((u.part as usize, u.nodes, (now + l.dur) as u32));
                }
            }
        }
    }
    println!("cycles {st} value {sv} bound {sb} {:.2}% turns {tt} rounds {tr} time {:.2} s, {:.3} s at most",
        sv as f64 * 100.0 / sb as f64, t_all.elapsed().as_secs_f64(), worst);
}
